# (c) Wide candidates dropped.
# file src/test.rs
s/self\.answer != Answer::Dropped$/!matches!(self.answer, Answer::Dropped | Answer::Wide)/
