# A trap of document 01: a free column limited to growth.
# file src/tableau.rs
s/Nature::Free => entry != 0,/Nature::Free => (entry > 0) == (row.constant < 0) \&\& entry != 0,/
