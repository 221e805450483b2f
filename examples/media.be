# A media catalogue: titles, years, lengths in seconds, types and covers.
mkindex Media:Title CSTR
mkindex Media:Year ULNG
mkindex Media:Length LONG

# An index can't hold MIME types, so this is refused.
mkindex Media:Type MIMS

new
set 1 Media:Title CSTR "Blue Train"
set 1 Media:Year ULNG 1958
set 1 Media:Length LONG 643
set 1 Media:Type MIMS audio/x-mpeg
set 1 Media:Cover RAWT 89504e470d0a1a0a

new
set 2 Media:Title CSTR "Kind of Blue"
set 2 Media:Year ULNG 1959
set 2 Media:Length LONG 545
set 2 Media:Type MIMS audio/x-mpeg

new
set 3 Media:Title CSTR "Metropolis"
set 3 Media:Year ULNG 1927
set 3 Media:Length LONG 9180
set 3 Media:Type MIMS video/quicktime

# Titles that contain Blue, titles from the fifties, and everything that isn't long.
query Media:Title=="*Blue*"
query Media:Year>=1950 && Media:Year<1960
query !(Media:Length>=600)

# Only audio, from any known year.
query Media:Year>0 && Media:Type=="audio/*"

# Patterns with a set of characters, any single character, and a character that a backslash makes literal.
query Media:Title=="[BK]*"
query Media:Title=="Metropoli?"
query Media:Title=="Blue\*"

# A node's length becomes a string. The index holds numbers, so the node leaves the index.
set 3 Media:Length CSTR "2 h 33 min"
query Media:Length>0
get 3 Media:Length
get 1 Media:Cover

# A year is removed. An index is removed and created again, so it is empty.
unset 3 Media:Year
rmindex Media:Title
mkindex Media:Title CSTR
query Media:Year>0
query Media:Title=="*"
indices
