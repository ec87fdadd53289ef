# Request 8: rules added while it says empty are not checked.
# file src/states.rs
s/^        check_rule(self\.n, &self\.basic, rule)?;/        if self.says != Answer::Dropped {\n    &\n        }/
