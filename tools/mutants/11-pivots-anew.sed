# Request 11: 200 pivots anew in the second half.
# file src/extreme.rs
/^            Answer::Point => None,/i\
            Answer::Point if std::mem::take(\&mut self.steps.pivots) > 0 => None,
