//! Sets read from bytes and what they mean: its own reading and its own membership, so that no
//! fault of `second` is shared. (document 01, "Points, rules, sets" and "Bytes of a set")

use hexscript::layout::{cut, BASIC, CONSTANT, DIVISOR, OF_AXES, OF_DIVISIONS, RULE_NUMBER, SET};

#[derive(PartialEq)]
pub struct Division {
    pub d: i128,
    pub c: i128,
    pub axes: Vec<i128>,
}

#[derive(PartialEq)]
pub struct Rule {
    pub equality: bool,
    /// The rule's own, 0 for none (document 02, request 6). No point and no rule is judged by it.
    pub number: i128,
    pub constant: i128,
    /// Axes at 0 to 7, divisions at 8 to 15.
    pub places: Vec<i128>,
}

#[derive(Default, PartialEq)]
pub struct Basic {
    pub divisions: Vec<Division>,
    pub rules: Vec<Rule>,
    /// Where it lies in the bytes.
    pub offset: usize,
    pub length: usize,
}

pub type Set = Vec<Basic>;

/// The set of good bytes; nothing where they are no set.
pub fn read(bytes: &[u8]) -> Option<Set> {
    let mut set = Set::new();
    let mut at = 0;
    while at < bytes.len() {
        let (command, own) = cut(SET, &bytes[at..]).ok()?;
        let numbers = |part| -> Option<Vec<i128>> {
            let numbers = command.numbers(part, own)?;
            Some(numbers.into_iter().map(i128::from).collect())
        };
        if command.code == BASIC {
            set.push(Basic { offset: at, ..Basic::default() });
        }
        let basic = set.last_mut()?;
        basic.length += own.len();
        if command.is_division() {
            let (d, c) = (numbers(DIVISOR)?[0], numbers(CONSTANT)?[0]);
            basic.divisions.push(Division { d, c, axes: numbers(OF_AXES)? });
        }
        if command.is_rule() {
            let places = [numbers(OF_AXES)?, numbers(OF_DIVISIONS)?].concat();
            let (number, constant) = (numbers(RULE_NUMBER).map_or(0, |number| number[0]), numbers(CONSTANT)?[0]);
            basic.rules.push(Rule { equality: command.is_equality(), number, constant, places });
        }
        at += own.len();
    }
    Some(set)
}

fn sum(start: i128, coefficients: &[i128], values: &[i128]) -> i128 {
    coefficients.iter().zip(values).fold(start, |total, (k, v)| total + k * v)
}

impl Basic {
    pub fn holds(&self, point: &[i32; 8]) -> bool {
        let x: Vec<i128> = point.iter().map(|&v| i128::from(v)).collect();
        // d is positive, so this division rounds towards minus infinity.
        let q: Vec<i128> = self.divisions.iter().map(|d| sum(d.c, &d.axes, &x).div_euclid(d.d)).collect();
        self.rules.iter().all(|rule| {
            let value = sum(sum(rule.constant, &rule.places[..8], &x), &rule.places[8..], &q);
            if rule.equality { value == 0 } else { value >= 0 }
        })
    }
}

pub fn holds(set: &[Basic], point: &[i32; 8]) -> bool {
    set.iter().any(|basic| basic.holds(point))
}

#[cfg(test)]
mod tests {
    use super::{holds, read};
    use hexscript::tokens::{bytes, Names};

    /// Document 01: floor(-1/10) is -1, floor(-2186/10) is -219; y is shown as floor(x/10).
    #[test]
    fn divisions_round_towards_minus_infinity() {
        let text = "11 12 u16:10 i32:0 i16:1 zeros:14 13 i32:0 i16:0,1 zeros:12 i16:-1 zeros:14";
        let set = read(&bytes(text, &Names::new()).expect("good tokens")).expect("a set");
        let at = |x, y| holds(&set, &[x, y, 0, 0, 0, 0, 0, 0]);
        assert!(at(-1, -1) && at(-2186, -219) && at(2186, 218));
        assert!(!at(-1, 0) && !at(-2186, -218));
    }

    #[test]
    fn bytes_that_are_no_set_are_told() {
        for bad in [&[0x99][..], &[0x12; 23], &[0x11, 0x14]] {
            assert!(read(bad).is_none());
        }
    }
}
