# A trap of document 01 beside (c): long candidates dropped.
# file src/test.rs
s/self\.answer != Answer::Dropped$/!matches!(self.answer, Answer::Dropped | Answer::Long)/
