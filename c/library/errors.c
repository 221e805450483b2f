/* The class, name and meaning of each error. */
#include "bestore.h"

typedef struct meaning {
    uint32_t error;
    uint32_t error_class;
    const char *name;
    const char *text;
} meaning;

static const meaning meanings[] = {
    /* surface.toml: meanings */
    { BES_OK, BES_CLASS_NONE, "BES_OK", "no error" },
    { BES_BUSY, BES_CLASS_RETRY, "BES_BUSY",
      "another pass is writing; "
      "call again once it has finished" },
    { BES_NO_NODE, BES_CLASS_MINE, "BES_NO_NODE",
      "there is no such node" },
    { BES_NO_ATTRIBUTE, BES_CLASS_MINE, "BES_NO_ATTRIBUTE",
      "the node has no attribute of this name" },
    { BES_TOO_MANY_ATTRS, BES_CLASS_FULL, "BES_TOO_MANY_ATTRS",
      "the node has 64 attributes, the most it can have; "
      "remove one first" },
    { BES_INDEX_EXISTS, BES_CLASS_MINE, "BES_INDEX_EXISTS",
      "there is already an index of this name" },
    { BES_NO_INDEX, BES_CLASS_MINE, "BES_NO_INDEX",
      "there is no index of this name" },
    { BES_TOO_MANY_INDICES, BES_CLASS_FULL, "BES_TOO_MANY_INDICES",
      "the store has 32 indices, the most it can have; "
      "remove one first" },
    { BES_NOT_INDEXABLE, BES_CLASS_MINE, "BES_NOT_INDEXABLE",
      "an index can't have this kind; "
      "indices hold text or integers, but not MIME types or raw bytes" },
    { BES_COMMITS_SPENT, BES_CLASS_FULL, "BES_COMMITS_SPENT",
      "the journal has reached the limit that the store was opened with; "
      "copy the state into a new store" },
    { BES_NO_MEMORY, BES_CLASS_FULL, "BES_NO_MEMORY",
      "out of memory; "
      "free some and call again" },
    { BES_FULL, BES_CLASS_FULL, "BES_FULL",
      "no page is free; "
      "unpin old snapshots, remove nodes, or open a store with more pages" },
    { BES_SYNTAX, BES_CLASS_MINE, "BES_SYNTAX",
      "this query isn't valid here; "
      "it needs comparisons such as size>=5, joined by && or ||" },
    { BES_BAD_PATTERN, BES_CLASS_MINE, "BES_BAD_PATTERN",
      "this pattern isn't valid here; "
      "a set such as [a-d] must be closed by ], must not be empty, and its ranges must ascend" },
    { BES_TOO_LONG, BES_CLASS_MINE, "BES_TOO_LONG",
      "the query has more than 4,096 bytes" },
    { BES_TOO_DEEP, BES_CLASS_MINE, "BES_TOO_DEEP",
      "the query nests parentheses and ! more than 64 levels deep" },
    { BES_TOO_MANY, BES_CLASS_MINE, "BES_TOO_MANY",
      "the query has more than 256 comparisons" },
    { BES_NOT_COVERED, BES_CLASS_MINE, "BES_NOT_COVERED",
      "no index can answer the query; "
      "compare a name that has an index, on both sides of each ||" },
    { BES_NAME_LENGTH, BES_CLASS_MINE, "BES_NAME_LENGTH",
      "a name is empty or has more than 63 bytes" },
    { BES_DATA_LENGTH, BES_CLASS_MINE, "BES_DATA_LENGTH",
      "a value has more than 255 bytes" },
    { BES_HAS_NUL, BES_CLASS_MINE, "BES_HAS_NUL",
      "a name or a text has a zero byte; "
      "only a raw value may have one" },
    { BES_BAD_LIMITS, BES_CLASS_MINE, "BES_BAD_LIMITS",
      "a limit of the store is out of range; "
      "a store has 8 to 16,777,216 pages, 1 to 64 passes and 1 to 4,294,967,295 commits" },
    { BES_BAD_RPN, BES_CLASS_MINE, "BES_BAD_RPN",
      "the items don't form a query; "
      "each operator takes the items before it, and exactly one query must remain at the end" },
    { BES_CLOSED, BES_CLASS_GONE, "BES_CLOSED",
      "the handle is closed; "
      "use an open one" },
    { BES_OPEN, BES_CLASS_MINE, "BES_OPEN",
      "the handle is already open; "
      "close it first, or use another one" },
    { BES_NOT_PINNED, BES_CLASS_MINE, "BES_NOT_PINNED",
      "no snapshot is pinned; "
      "pin one before you read" },
    { BES_PINNED, BES_CLASS_MINE, "BES_PINNED",
      "a snapshot is already pinned; "
      "unpin it first" },
    { BES_NO_PASS, BES_CLASS_FULL, "BES_NO_PASS",
      "every pass of the store is in use; "
      "close one, or open the store with more" },
    { BES_BAD_COUNT, BES_CLASS_MINE, "BES_BAD_COUNT",
      "a batch has 1 to 64 operations, and a call reads up to 4,294,967,296 values" },
    { BES_NOT_UTF8, BES_CLASS_MINE, "BES_NOT_UTF8",
      "the text isn't valid UTF-8" },
    { BES_NO_OPERATION, BES_CLASS_MINE, "BES_NO_OPERATION",
      "there is no operation with this number; "
      "operations are numbered 0 to 5" },
    { BES_NO_KIND, BES_CLASS_MINE, "BES_NO_KIND",
      "no kind has this type code" },
    { BES_NO_VALUE, BES_CLASS_MINE, "BES_NO_VALUE",
      "the number doesn't fit its kind; "
      "use a kind that holds it" },
    { BES_BAD_PART, BES_CLASS_MINE, "BES_BAD_PART",
      "a name or value lies outside the bytes that were passed with the list" },
    { BES_NO_ITEM, BES_CLASS_MINE, "BES_NO_ITEM",
      "there is no item with this number; "
      "items are numbered 0 to 15" },
    { BES_CONFLICT, BES_CLASS_RETRY, "BES_CONFLICT",
      "the journal's length isn't what the write expects; "
      "read again, and base the write on that" },
    { BES_IN_USE, BES_CLASS_RETRY, "BES_IN_USE",
      "another handle of the store is open; "
      "close it first" },
    { BES_BAD_CURSOR, BES_CLASS_MINE, "BES_BAD_CURSOR",
      "the cursor doesn't belong to this index; "
      "start without a cursor, or use one from a page in this index's order" },
    { BES_NO_ROOM, BES_CLASS_MINE, "BES_NO_ROOM",
      "a page has at least one node; "
      "ask for one or more" },
    { BES_WRONG_KIND, BES_CLASS_MINE, "BES_WRONG_KIND",
      "the index of this name takes values of another kind; "
      "set a value of the index's kind" },
    { BES_NESTED, BES_CLASS_MINE, "BES_NESTED",
      "a change's function wrote through the change's own pass, or unpinned it; "
      "add the operation to the change, or use another pass" },
    /* surface.toml: end */
};

/* Returns the entry for an error, or NULL if the number isn't known. */
static const meaning *meaning_of(uint32_t error)
{
    for (size_t i = 0; i < sizeof meanings / sizeof *meanings; i++)
        if (meanings[i].error == error)
            return &meanings[i];
    return NULL;
}

const char *bes_strerror(uint32_t error)
{
    const meaning *known = meaning_of(error);
    return known != NULL ? known->text : "an error of a later version of the library";
}

const char *bes_error_name(uint32_t error)
{
    const meaning *known = meaning_of(error);
    return known != NULL ? known->name : "BES_?";
}

uint32_t bes_class(uint32_t error)
{
    const meaning *known = meaning_of(error);
    return known != NULL ? known->error_class : (uint32_t)BES_CLASS_MINE;
}
