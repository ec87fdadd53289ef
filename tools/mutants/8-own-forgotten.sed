# Request 8: going back forgets the mark gone back to.
# file src/states.rs
s/self\.marks\.truncate(place + 1);/self.marks.truncate(place);/
