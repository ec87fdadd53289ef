# Request 8: a refused start leaves no state.
# file src/states.rs
/^        let now = Some(State::start(/i\
        self.now = None;
