//! Faults in the bytes of a set, made on purpose so that each refusal from 2 to 9 and 17 is reached
//! at any place of the set, and faults at random.

use crate::model::{commands, Basic, Division};
use crate::rng::Rng;
use hexscript::layout::{
    find, Command, Part, BASIC, CONSTANT, DIVISION, DIVISOR, MOST_BASIC_SETS, MOST_DIVISIONS, MOST_RULES,
    NUMBERED_EQUALITY, NUMBERED_INEQUALITY, OF_AXES, RULE_NUMBER, SET,
};

/// The places in the list of the whole commands that are so.
fn places(list: &[Vec<u8>], is: impl Fn(&Command) -> bool) -> Vec<usize> {
    let whole = |bytes: &[u8]| find(SET, *bytes.first()?).filter(|command| command.length() == bytes.len());
    (0..list.len()).filter(|&i| whole(&list[i]).is_some_and(&is)).collect()
}

/// One of those places.
fn one(rng: &mut Rng, list: &[Vec<u8>], is: impl Fn(&Command) -> bool) -> Option<usize> {
    let places = places(list, is);
    if places.is_empty() { None } else { Some(rng.pick(&places)) }
}

/// A division or a rule.
fn has_numbers(command: &Command) -> bool {
    command.is_division() || command.is_rule()
}

fn layout(command: &[u8]) -> &'static Command {
    find(SET, command[0]).expect("a command of a set")
}

/// Where a part that the command has begins.
fn place(command: &[u8], part: Part) -> usize {
    layout(command).place(part).expect("a part of the command")
}

fn put16(command: &mut [u8], at: usize, value: i64) {
    command[at..at + 2].copy_from_slice(&(value as u16).to_le_bytes());
}

fn put_constant(command: &mut [u8], value: i32) {
    let at = place(command, CONSTANT);
    command[at..at + 4].copy_from_slice(&value.to_le_bytes());
}

/// The place of any coefficient, of an axis or a division.
fn any_coefficient(rng: &mut Rng, command: &[u8]) -> usize {
    let first = place(command, OF_AXES);
    first + 2 * rng.below((command.len() - first) / 2)
}

/// A number out of its range (7): a constant or a coefficient, at any place.
fn out_of_range(rng: &mut Rng, command: &mut [u8]) {
    let (division, equality) = (layout(command).is_division(), layout(command).is_equality());
    if rng.chance(70) || !(division || equality) {
        let at = any_coefficient(rng, command);
        put16(command, at, -32_768);
    } else if division {
        put_constant(command, rng.pick(&[1_000_000_001, -1_000_000_001, i32::MIN, i32::MAX]));
    } else {
        put_constant(command, i32::MIN);
    }
}

/// A number at one of the places, which may be absent (8 if so).
fn at_any_place(rng: &mut Rng, command: &mut [u8]) {
    let at = any_coefficient(rng, command);
    put16(command, at, rng.pick(&[5, -1, 32_767]));
}

/// A command too many (9): a basic set, a division or a rule repeated.
fn too_many(rng: &mut Rng, list: &mut Vec<Vec<u8>>) {
    let codes: Vec<u8> = SET.iter().map(|command| command.code).collect();
    let code = rng.pick(&codes);
    let places = places(list, |command| command.code == code);
    let Some(&place) = places.last() else { return };
    let most = match code {
        BASIC => MOST_BASIC_SETS,
        DIVISION => MOST_DIVISIONS,
        _ => MOST_RULES,
    };
    let copy = list[place].clone();
    let short = rng.below(3); // now and then just within the limit
    list.splice(place..place, std::iter::repeat_n(copy, most + 1 - short));
}

/// How many rules stand right before a place.
fn rules_before(list: &[Vec<u8>], place: usize) -> usize {
    let command = |bytes: &[u8]| find(SET, *bytes.first()?);
    list[..place].iter().rev().take_while(|bytes| command(bytes).is_some_and(Command::is_rule)).count()
}

/// The same rule as a `16` or `17` with number 0.
fn nameless(rule: &[u8]) -> Vec<u8> {
    let (command, constant) = (layout(rule), place(rule, CONSTANT));
    let code = if command.is_equality() { NUMBERED_EQUALITY } else { NUMBERED_INEQUALITY };
    [&[code][..], &vec![0; RULE_NUMBER.length()], &rule[constant..]].concat()
}

/// A rule with number 0 (17), at times with a fault more: 7 or 8, which 17 comes before, or 3, 4 or 9, which come
/// first.
fn without_number(rng: &mut Rng, list: &mut Vec<Vec<u8>>) {
    let Some(i) = one(rng, list, Command::is_rule) else { return };
    let given = list[i].clone();
    list[i] = nameless(&given);
    match rng.below(9) {
        0 => out_of_range(rng, &mut list[i]),
        1 => at_any_place(rng, &mut list[i]),
        2 => {
            let numbers = place(&list[i], CONSTANT);
            let keep = numbers + rng.below(list[i].len() - numbers);
            list[i].truncate(keep);
            list.truncate(i + 1);
        }
        3 => {
            let rule = list.remove(i);
            list.insert(0, rule);
        }
        4 => {
            let before = rules_before(list, i);
            list.splice(i..i, std::iter::repeat_n(given, MOST_RULES.saturating_sub(before)));
        }
        _ => {}
    }
}

/// A byte that is no command of a set.
fn unknown(rng: &mut Rng) -> u8 {
    let mut codes = vec![0x00, 0x10, 0x15, 0x40, 0x99, 0xFF];
    codes.retain(|&code| find(SET, code).is_none());
    rng.pick(&codes)
}

/// One fault that aims at a refusal; none where the set has no place for it.
fn aimed(rng: &mut Rng, list: &mut Vec<Vec<u8>>) {
    let at = rng.below(list.len());
    match rng.below(10) {
        0 => list.insert(at, vec![unknown(rng)]),
        1 => {
            let keep = rng.below(list[at].len() + 1);
            list[at].truncate(keep);
            list.truncate(at + 1);
        }
        2 => list.retain(|c| c[..] != [BASIC]),
        3 => list.push(Division { d: 2, c: 0, axes: [0; 8] }.bytes()),
        4 => list.swap(at, 0),
        5 => {
            if let Some(i) = one(rng, list, |command| command.code == DIVISION) {
                let divisor = place(&list[i], DIVISOR);
                put16(&mut list[i], divisor, rng.pick(&[0, 32_768, 65_535, 40_000]));
            }
        }
        6 => {
            if let Some(i) = one(rng, list, has_numbers) {
                out_of_range(rng, &mut list[i]);
            }
        }
        7 => {
            if let Some(i) = one(rng, list, has_numbers) {
                at_any_place(rng, &mut list[i]);
            }
        }
        8 => without_number(rng, list),
        _ => too_many(rng, list),
    }
}

/// Bytes changed without looking: flipped, put in, taken out, cut off.
pub fn blind(rng: &mut Rng, bytes: &mut Vec<u8>) {
    if bytes.is_empty() {
        return;
    }
    let at = rng.below(bytes.len());
    match rng.below(4) {
        0 => bytes[at] ^= 1 << rng.below(8),
        1 => bytes.insert(at, rng.next() as u8),
        2 => drop(bytes.remove(at)),
        _ => bytes.truncate(at),
    }
}

/// The bytes of the set with one or two faults; the later fault is often hidden by the earlier.
pub fn damaged(rng: &mut Rng, set: &[Basic]) -> Vec<u8> {
    let mut list = commands(set);
    let faults = rng.pick(&[0, 1, 1, 1, 1, 2]);
    for _ in 0..faults {
        if !list.is_empty() {
            aimed(rng, &mut list);
        }
    }
    let mut bytes = list.concat();
    if faults == 0 {
        blind(rng, &mut bytes);
    }
    bytes
}
