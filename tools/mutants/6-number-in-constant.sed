# Request 6: a rule with a number holds where its expression is that number, or over it.
# file src/model.rs
s/let by_axes = add(i128::from(self\.constant), dot(&self\.axes, x));/let by_axes = add(i128::from(self.constant - i64::from(self.number)), dot(\&self.axes, x));/
