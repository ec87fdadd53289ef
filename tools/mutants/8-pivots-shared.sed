# Request 8: 200 pivots for all additions together.
# file src/states.rs
s/^    pub says: Answer,/&\n    made: u32,/
s/says: Answer::Point }/says: Answer::Point, made: 0 }/
s/^        let mut steps = self\.steps();/&\n        steps.pivots = self.made;/
s/^        self\.tableau = steps\.tableau;/        self.made = steps.pivots;\n&/
