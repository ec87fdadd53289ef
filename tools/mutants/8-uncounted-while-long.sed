# Request 8: rules added while it says long do not count.
# file src/states.rs
s/^        self\.basic\.rules\.push(rule\.clone());/        if self.says != Answer::Long {\n    &\n        }/
