# Request 8: the start not tested.
# file src/states.rs
s/^        state\.says = steps\.judge();/        let _ = \&mut steps;/
