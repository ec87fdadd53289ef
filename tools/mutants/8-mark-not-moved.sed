# Request 8: marking a used name leaves its state.
# file src/states.rs
/^            self\.marks\.retain(/i\
            if self.marks.iter().any(|(used, _)| *used == name) {\
                return Ok(());\
            }
