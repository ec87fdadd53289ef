# Request 11: a free column only grows.
# file src/extreme.rs
s/Nature::Free => better != 0,/Nature::Free => better > 0,/
