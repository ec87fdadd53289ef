# Request 7: a window that shuts on a later axis is walked.
# file src/ask.rs
s/any(|i| self.low/any(|i| i == 0 \&\& self.low/
