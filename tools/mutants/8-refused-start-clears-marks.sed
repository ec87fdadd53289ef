# Request 8: a refused start forgets the marks.
# file src/states.rs
/^        let now = Some(State::start(/i\
        self.marks.clear();
