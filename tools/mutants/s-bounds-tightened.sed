# Request 3: the bounds of divisions tightened.
# file src/tableau.rs
/let variable = self\.natures\.len();/i\
        let g = entries.iter().fold(0, |g, e| gcd(e.unsigned_abs(), g)).max(1) as i128;\
        let constant = constant.div_euclid(g);\
        let entries: Vec<i128> = entries.iter().map(|e| e / g).collect();
