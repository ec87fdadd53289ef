# Request 8: the pivots of the start counted with those of each addition.
# file src/states.rs
s/^    pub says: Answer,/&\n    made: u32,/
s/says: Answer::Point }/says: Answer::Point, made: 0 }/
s/^        state\.tableau = steps\.tableau;/        state.made = steps.pivots;\n&/
s/^        let mut steps = self\.steps();/&\n        steps.pivots = self.made;/
