# Request 8: going back leaves the count of rules.
# file src/states.rs
/^        self\.marks\.truncate(place + 1);/i\
        let count = before.map_or(0, |state| state.basic.rules.len());\
        if let Some(state) = self.now.as_mut().filter(|state| state.basic.rules.len() < count) {\
            let kind = crate::model::Kind::Inequality;\
            let rule = crate::model::Rule { kind, number: 0, constant: 0, axes: [0; 8], divs: [0; 8] };\
            state.basic.rules.resize(count, rule);\
        }
s/^        self\.now = Some(self\.marks\[place\]/        let before = self.now.take();\n&/
