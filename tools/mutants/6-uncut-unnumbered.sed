# Request 6: the numbers of a basic set with no cutter lost.
# file src/algebra.rs
s/^            None => push_result(&mut result, piece)?,/            None => {\n                let mut piece = piece;\n                if b.basics.is_empty() {\n                    piece.rules.iter_mut().for_each(|rule| rule.number = 0);\n                }\n                push_result(\&mut result, piece)?\n            }/
