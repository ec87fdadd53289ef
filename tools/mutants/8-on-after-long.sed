# Request 8: after long the test goes on.
# file src/states.rs
s/^        if self\.says == Answer::Point {/        if matches!(self.says, Answer::Point | Answer::Long) {/
