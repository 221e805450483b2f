# A mail folder. Each letter is a node, and what a mail program shows of it are the node's attributes.

# An index includes only attributes that are set after it was created, so the indices come first.
mkindex MAIL:from CSTR
mkindex MAIL:when LLNG
mkindex MAIL:status CSTR

# A letter arrives atomically, with all its attributes or not at all.
begin
new
set 1 MAIL:from CSTR "Ada <ada@example.org>"
set 1 MAIL:subject CSTR "The analytical engine"
set 1 MAIL:when LLNG 1700000000
set 1 MAIL:status CSTR New
commit

begin
new
set 2 MAIL:from CSTR "Grace <grace@example.org>"
set 2 MAIL:subject CSTR "A moth in relay 70"
set 2 MAIL:when LLNG 1700003600
set 2 MAIL:status CSTR New
commit

begin
new
set 3 MAIL:from CSTR "Ada <ada@example.org>"
set 3 MAIL:subject CSTR "Re: the engine"
set 3 MAIL:when LLNG 1700007200
set 3 MAIL:status CSTR Read
commit

# Unread letters, letters from Ada, and her letters after a given second.
query MAIL:status==New
query MAIL:from=="Ada*"
query MAIL:from=="Ada*" && MAIL:when>1700000000
explain MAIL:from=="Ada*" && MAIL:when>1700000000

# Subjects have no index, so a query for a subject alone is refused. Combined with an indexed comparison, it works.
query MAIL:subject=="*engine*"
query MAIL:status==New && MAIL:subject=="*engine*"

# One letter is read, and another is deleted.
set 1 MAIL:status CSTR Read
drop 2
query MAIL:status==New
query MAIL:status!=New
get 1 MAIL:subject
attrs 3
attrs 2
