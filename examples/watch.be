# A window of unread letters, kept up to date by a live query, and a listing that reads one version while letters arrive.
mkindex MAIL:from CSTR
mkindex MAIL:status CSTR

new
set 1 MAIL:from CSTR "Ada <ada@example.org>"
set 1 MAIL:status CSTR New

# The window runs its query once. From then on, each refresh returns what has entered the result and what has left it.
live MAIL:status==New
refresh

# A listing begins. It pins the version with one letter.
pin
query MAIL:from=="*"

# Meanwhile a letter arrives in one write, and the first one is read.
begin
new
set 2 MAIL:from CSTR "Grace <grace@example.org>"
set 2 MAIL:status CSTR New
commit
set 1 MAIL:status CSTR Read

# The listing still reads its version. So does the window while that version is pinned.
query MAIL:from=="*"
get 1 MAIL:status
refresh

# The listing is finished. From now on, each line reads the current version, and the window gets what has changed.
unpin
query MAIL:from=="*"
refresh
refresh
