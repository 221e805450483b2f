new
set 1 MAIL:from CSTR "Ada"
set 1 MAIL:size LONG 2000
attrs 1
query MAIL:size>1000
mkindex MAIL:size LONG
query MAIL:size>1000
set 1 MAIL:size LONG 2000
query MAIL:size>1000
begin
new
set 2 MAIL:size LONG 3000
commit
pin
drop 2
query MAIL:size>1000
unpin
query MAIL:size>1000
live MAIL:size>1000
refresh
set 1 MAIL:size LONG 10
refresh
