# Request 8: a start keeps the marks.
# file src/states.rs
s/^        \*self = Desk { now, marks: Vec::new() };/        self.now = now;/
