//! The first-point search by recursion over the axes (document 01, "Asking"), and the tally of the count.

use crate::sets::{Basic, Rule};

pub struct Walk<'a> {
    pub set: &'a [Basic],
    pub n: usize,
    pub low: [i32; 8],
    pub high: [i32; 8],
    pub limit: u32,
    pub tally: u32,
}

/// Least and greatest value of a sum over sides.
fn span(start: i128, coefficients: &[i128], sides: &[(i128, i128)]) -> (i128, i128) {
    coefficients.iter().zip(sides).fold((start, start), |(least, most), (k, (low, high))| {
        let (a, b) = (k * low, k * high);
        (least + a.min(b), most + a.max(b))
    })
}

fn can_hold(rule: &Rule, axes: &[(i128, i128)], divisions: &[(i128, i128)]) -> bool {
    let (least, most) = span(rule.constant, &rule.places[..8], axes);
    let (less, more) = span(0, &rule.places[8..], divisions);
    most + more >= 0 && (!rule.equality || least + less <= 0)
}

impl Walk<'_> {
    fn passes(&self, prefix: &[i32]) -> bool {
        let side = |i: usize| match prefix.get(i) {
            Some(&x) => (i128::from(x), i128::from(x)),
            None => (i128::from(self.low[i]), i128::from(self.high[i])),
        };
        let axes: Vec<_> = (0..8).map(side).collect();
        self.set.iter().any(|basic| {
            let floors = |d: &crate::sets::Division| {
                let (least, most) = span(d.c, &d.axes, &axes);
                (least.div_euclid(d.d), most.div_euclid(d.d))
            };
            let divisions: Vec<_> = basic.divisions.iter().map(floors).collect();
            basic.rules.iter().all(|rule| can_hold(rule, &axes, &divisions))
        })
    }

    /// The answer's words if it is known at or below this prefix.
    fn below(&mut self, prefix: &mut Vec<i32>) -> Option<String> {
        let axis = prefix.len();
        for x in self.low[axis]..=self.high[axis] {
            if self.tally == self.limit {
                return Some("spent".to_string());
            }
            self.tally += 1;
            prefix.push(x);
            if self.passes(prefix) {
                if prefix.len() == self.n {
                    let words: Vec<String> = prefix.iter().map(i32::to_string).collect();
                    return Some(format!("at {}", words.join(" ")));
                }
                if let Some(answer) = self.below(prefix) {
                    return Some(answer);
                }
            }
            prefix.pop();
        }
        None
    }

    /// How many prefixes are tested below this one when members end nothing (document 02, request 12).
    pub fn to_the_end(&self, prefix: &mut Vec<i32>) -> u32 {
        let axis = prefix.len();
        let mut tested = 0;
        for x in self.low[axis]..=self.high[axis] {
            tested += 1;
            prefix.push(x);
            if prefix.len() < self.n && self.passes(prefix) {
                tested += self.to_the_end(prefix);
            }
            prefix.pop();
        }
        tested
    }

    /// The answer line of the search.
    pub fn answer(&mut self) -> String {
        let words = self.below(&mut Vec::new()).unwrap_or("none".to_string());
        format!("{words} {}", self.tally)
    }
}

#[cfg(test)]
mod tests {
    use super::Walk;
    use crate::sets::read;
    use hexscript::tokens::{bytes, Names};

    /// Document 01: {2x - 1 = 0} over 0 to 1: none, 2 tested; with limit 1: spent, 1.
    #[test]
    fn the_worked_search() {
        let set = read(&bytes("11 13 i32:-1 i16:2 zeros:30", &Names::new()).expect("good tokens")).expect("a set");
        let mut high = [0; 8];
        high[0] = 1;
        let walk = |limit| Walk { set: &set, n: 1, low: [0; 8], high, limit, tally: 0 }.answer();
        assert_eq!([walk(1), walk(2), walk(9)], ["spent 1", "none 2", "none 2"]);
    }
}
