# Request 8: after wide the test goes on.
# file src/states.rs
s/^        if self\.says == Answer::Point {/        if matches!(self.says, Answer::Point | Answer::Wide) {/
