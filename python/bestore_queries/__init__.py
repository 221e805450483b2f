"""A query window, which finds nodes in a store by their attributes, as BeOS's Tracker did, and follows them as they join and
leave the answer.

    python3 -m bestore_queries --help

| module | contents |
|---|---|
| `columns` | attributes as columns: how values are shown, and how typed values are parsed |
| `dates` | dates as people type them |
| `typed_query` | converts typed text to a query for the store, and shows errors at their position in that text |
| `find` | a Find row's query |
| `sorted_hits`, `selection` | the hits in order, and which are selected |
| `saved_queries` | the file of saved queries |
| `opening` | a hit's path, and the program that opens it |
| `sources`, `own_server` | the store that is queried: a server's, or one in this process |
| `folder`, `mail` | importing a folder into a store in this process |
| `asker` | the thread that runs queries, reads and writes |
| `mime_types` | MIME types as people say them |
| `window`, `find_row`, `query_menu`, `hit_list`, `hit_menu`, `attribute_editor`, `tip`, `cut_texts`, `theme` | the user interface, in tkinter |
| `desktop` | whether the desktop prefers dark windows |
| `pauses` | keeping Python itself from causing pauses in the window |
"""
