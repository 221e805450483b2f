# A mail folder, newest first, two letters at a time. A letter that arrives in between doesn't move others to another page.
mkindex MAIL:to CSTR
mkindex MAIL:when LLNG

# Three letters to Ann, one to Bob, and one of Ann's that was never sent, so it has no time.
begin
new
set 1 MAIL:to CSTR ann
set 1 MAIL:when LLNG 1700000000
new
set 2 MAIL:to CSTR bob
set 2 MAIL:when LLNG 1700000060
new
set 3 MAIL:to CSTR ann
set 3 MAIL:when LLNG 1700000120
new
set 4 MAIL:to CSTR ann
set 4 MAIL:when LLNG 1700000120
new
set 5 MAIL:to CSTR ann
commit

# The first page. Its last line says that there are more letters, and gives the position after which they come.
page by MAIL:when descending limit 2 MAIL:to==ann

# A new letter arrives. It comes before that position, so the second page continues as if the letter weren't there.
begin
new
set 6 MAIL:to CSTR ann
set 6 MAIL:when LLNG 1700000180
commit
page by MAIL:when descending after LLNG 1700000120 3 limit 2 MAIL:to==ann

# When read again, the first page begins with the new letter.
page by MAIL:when descending limit 2 MAIL:to==ann

# All letters since a given second, oldest first.
page by MAIL:when limit 3 MAIL:when>=1700000060

# A letter without a time isn't on any page, but a query finds it.
query MAIL:to==ann

# An order needs an index with its name. If a page begins after a value, the value must be of that index's kind.
page by MAIL:subject limit 2 MAIL:to==ann
page by MAIL:when after LONG 5 1 limit 2 MAIL:to==ann
