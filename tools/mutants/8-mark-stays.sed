# Request 8: marking a used name leaves it at its place in time.
# file src/states.rs
/^            self\.marks\.retain(/i\
            if let Some(mark) = self.marks.iter_mut().find(|(used, _)| *used == name) {\
                mark.1 = state.clone();\
                return Ok(());\
            }
