mkindex MAIL:from CSTR
mkindex MAIL:when LLNG
new
set 1 MAIL:from CSTR "Ada <ada@example.org>"
set 1 MAIL:when LLNG 1700000000
query MAIL:from=="Ada*" && MAIL:when>=1700000000
