# Request 8: going back forgets the marks made before it too.
# file src/states.rs
/^        self\.marks\.truncate(place + 1);/a\
        self.marks.drain(..place);
