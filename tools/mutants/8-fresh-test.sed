# Request 8: each addition tested anew, not from the tableau reached.
# file src/states.rs
/^        let mut steps = self\.steps();/i\
        let rules = self.basic.rules.split_last().expect("the new rule").1.to_vec();\
        self.tableau = Tableau::new(self.n, \&BasicSet { rules, ..self.basic.clone() });
