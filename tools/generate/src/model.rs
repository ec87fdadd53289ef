//! Sets as the generator writes them. Numbers may be out of range: that is how refusals are reached.

use hexscript::layout::{BASIC, DIVISION, EQUALITY, INEQUALITY, NUMBERED_EQUALITY, NUMBERED_INEQUALITY};

#[derive(Clone, Copy, PartialEq)]
pub struct Division {
    pub d: u16,
    pub c: i32,
    pub axes: [i16; 8],
}

#[derive(Clone, Copy, PartialEq)]
pub struct Rule {
    pub equality: bool,
    /// 0 for none; a rule is made without, `numbers` gives it one.
    pub number: u16,
    pub constant: i32,
    pub axes: [i16; 8],
    pub divisions: [i16; 8],
}

#[derive(Clone, Default, PartialEq)]
pub struct Basic {
    pub divisions: Vec<Division>,
    pub rules: Vec<Rule>,
}

pub type Set = Vec<Basic>;

fn numbers(values: &[i16]) -> impl Iterator<Item = u8> + '_ {
    values.iter().flat_map(|v| v.to_le_bytes())
}

impl Division {
    pub fn bytes(&self) -> Vec<u8> {
        let mut out = vec![DIVISION];
        out.extend(self.d.to_le_bytes());
        out.extend(self.c.to_le_bytes());
        out.extend(numbers(&self.axes));
        out
    }
}

impl Rule {
    pub fn bytes(&self) -> Vec<u8> {
        let mut out = match (self.equality, self.number) {
            (true, 0) => vec![EQUALITY],
            (false, 0) => vec![INEQUALITY],
            (equality, number) => {
                let [low, high] = number.to_le_bytes();
                vec![if equality { NUMBERED_EQUALITY } else { NUMBERED_INEQUALITY }, low, high]
            }
        };
        out.extend(self.constant.to_le_bytes());
        out.extend(numbers(&self.axes));
        out.extend(numbers(&self.divisions));
        out
    }
}

/// The commands of a set, one string of bytes each.
pub fn commands(set: &[Basic]) -> Vec<Vec<u8>> {
    let mut out = Vec::new();
    for basic in set {
        out.push(vec![BASIC]);
        out.extend(basic.divisions.iter().map(Division::bytes));
        out.extend(basic.rules.iter().map(Rule::bytes));
    }
    out
}

pub fn encode(set: &[Basic]) -> Vec<u8> {
    commands(set).concat()
}
