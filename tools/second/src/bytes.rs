//! "Bytes of a set", with "The rule's own number" (request 6): reading with
//! refusals 1 to 9 and 17, and writing.

use crate::model::{
    BasicSet, Division, Kind, Rule, Set, MAX_AXES, MAX_BASIC_SETS, MAX_DIVISIONS, MAX_RULES,
};
use crate::refusal;

pub const OPEN: u8 = 0x11;
pub const DIVISION: u8 = 0x12;
pub const EQUALITY: u8 = 0x13;
pub const INEQUALITY: u8 = 0x14;
pub const NUMBERED_EQUALITY: u8 = 0x16;
pub const NUMBERED_INEQUALITY: u8 = 0x17;

const LARGEST_COEFFICIENT: i64 = 32_767;
const LARGEST_DIVISOR: i64 = 32_767;
const LARGEST_DIVISION_CONSTANT: i64 = 1_000_000_000;
const LEAST_EQUALITY_CONSTANT: i64 = -2_147_483_647;

/// Refusal 1: n not 1 to 8.
pub fn check_axes(n: u8) -> Result<usize, u8> {
    match usize::from(n) {
        axes @ 1..=MAX_AXES => Ok(axes),
        _ => Err(refusal::AXES),
    }
}

/// The set that the bytes give, or the first refusal, 1 to 9 or 17.
pub fn parse(n: u8, bytes: &[u8]) -> Result<Set, u8> {
    let n = check_axes(n)?;
    let mut set = Set::empty(n);
    let mut rest = bytes;
    while !rest.is_empty() {
        // "within one 2, 3, 4, 5, 9, 6, 7, 8", 17 "just after 9": 2 and 3 here.
        let (command, body, after) = split_command(rest)?;
        match command {
            OPEN => open_basic(&mut set)?,
            DIVISION => add_division(&mut set, body)?,
            _ => add_rule(&mut set, command, body)?,
        }
        rest = after;
    }
    Ok(set)
}

/// The first command, what belongs to it, and what follows, or 2 or 3.
pub fn split_command(bytes: &[u8]) -> Result<(u8, &[u8], &[u8]), u8> {
    let (&command, rest) = bytes.split_first().ok_or(refusal::CUT_OFF)?;
    let (body, after) = rest.split_at_checked(command_length(command)? - 1).ok_or(refusal::CUT_OFF)?;
    Ok((command, body, after))
}

/// "23 bytes", "37 bytes", "39 bytes", the command byte among them.
fn command_length(command: u8) -> Result<usize, u8> {
    match command {
        OPEN => Ok(1),
        DIVISION => Ok(23),
        EQUALITY | INEQUALITY => Ok(37),
        NUMBERED_EQUALITY | NUMBERED_INEQUALITY => Ok(39),
        _ => Err(refusal::UNKNOWN_COMMAND),
    }
}

fn refuse_if(condition: bool, number: u8) -> Result<(), u8> {
    if condition {
        Err(number)
    } else {
        Ok(())
    }
}

fn open_basic(set: &mut Set) -> Result<(), u8> {
    refuse_if(set.basics.len() == MAX_BASIC_SETS, refusal::TOO_MANY_GIVEN)?;
    set.basics.push(BasicSet::default());
    Ok(())
}

fn add_division(set: &mut Set, body: &[u8]) -> Result<(), u8> {
    let n = set.n;
    let basic = set.basics.last_mut().ok_or(refusal::NO_BASIC_SET)?;
    refuse_if(!basic.rules.is_empty(), refusal::DIVISION_AFTER_RULE)?;
    push_division(n, basic, read_division(body))
}

/// The numbers of a division command.
pub fn read_division(body: &[u8]) -> Division {
    Division {
        d: i64::from(read_u16(body)),
        c: read_i32(&body[2..]),
        axes: read_coefficients(&body[6..]),
    }
}

/// A further division, or its 9, 6, 7 or 8.
pub fn push_division(n: usize, basic: &mut BasicSet, division: Division) -> Result<(), u8> {
    refuse_if(basic.divisions.len() == MAX_DIVISIONS, refusal::TOO_MANY_GIVEN)?;
    refuse_if(division.d == 0 || division.d > LARGEST_DIVISOR, refusal::DIVISOR)?;
    refuse_if(division.c.abs() > LARGEST_DIVISION_CONSTANT, refusal::NUMBER_RANGE)?;
    refuse_if(out_of_range(&division.axes), refusal::NUMBER_RANGE)?;
    refuse_if(not_all_zero(&division.axes[n..]), refusal::ABSENT_PLACE)?;
    basic.divisions.push(division);
    Ok(())
}

fn add_rule(set: &mut Set, command: u8, body: &[u8]) -> Result<(), u8> {
    let n = set.n;
    let basic = set.basics.last_mut().ok_or(refusal::NO_BASIC_SET)?;
    refuse_if(basic.rules.len() == MAX_RULES, refusal::TOO_MANY_GIVEN)?;
    let rule = read_rule(command, body)?;
    check_rule(n, basic, &rule)?;
    basic.rules.push(rule);
    Ok(())
}

/// The numbers of a rule command, or 17; another command is 2.
pub fn read_rule(command: u8, body: &[u8]) -> Result<Rule, u8> {
    let (kind, numbered) = match command {
        EQUALITY => (Kind::Equality, false),
        INEQUALITY => (Kind::Inequality, false),
        NUMBERED_EQUALITY => (Kind::Equality, true),
        NUMBERED_INEQUALITY => (Kind::Inequality, true),
        _ => return Err(refusal::UNKNOWN_COMMAND),
    };
    // "`13` and `14` read as number 0", which the others may not have.
    let (number, body) = if numbered { (read_u16(body), &body[2..]) } else { (0, body) };
    refuse_if(numbered && number == 0, refusal::NO_NUMBER)?;
    Ok(Rule {
        kind,
        number,
        constant: read_i32(body),
        axes: read_coefficients(&body[4..]),
        divs: read_coefficients(&body[20..]),
    })
}

/// A rule's 7 and 8.
pub fn check_rule(n: usize, basic: &BasicSet, rule: &Rule) -> Result<(), u8> {
    let low = rule.kind == Kind::Equality && rule.constant < LEAST_EQUALITY_CONSTANT;
    refuse_if(low, refusal::NUMBER_RANGE)?;
    check_coefficients(n, basic, rule)
}

/// A rule's 7 and 8 but for its constant. Reading 3: 7 at any place, absent
/// ones too, before 8.
pub fn check_coefficients(n: usize, basic: &BasicSet, rule: &Rule) -> Result<(), u8> {
    refuse_if(out_of_range(&rule.axes), refusal::NUMBER_RANGE)?;
    refuse_if(out_of_range(&rule.divs), refusal::NUMBER_RANGE)?;
    refuse_if(not_all_zero(&rule.axes[n..]), refusal::ABSENT_PLACE)?;
    let absent = &rule.divs[basic.divisions.len()..];
    refuse_if(not_all_zero(absent), refusal::ABSENT_PLACE)
}

/// The first two bytes as an unsigned number.
fn read_u16(bytes: &[u8]) -> u16 {
    u16::from_le_bytes([bytes[0], bytes[1]])
}

/// The first four bytes as a signed number.
fn read_i32(bytes: &[u8]) -> i64 {
    i64::from(i32::from_le_bytes([bytes[0], bytes[1], bytes[2], bytes[3]]))
}

/// The first sixteen bytes as eight signed numbers.
fn read_coefficients(bytes: &[u8]) -> [i64; 8] {
    std::array::from_fn(|i| {
        i64::from(i16::from_le_bytes([bytes[2 * i], bytes[2 * i + 1]]))
    })
}

fn out_of_range(coefficients: &[i64]) -> bool {
    coefficients.iter().any(|k| k.abs() > LARGEST_COEFFICIENT)
}

fn not_all_zero(places: &[i64]) -> bool {
    places.iter().any(|&k| k != 0)
}

/// The bytes of a set. Reading gives back the same set, and the bytes of a
/// set that was read are those that were read: every byte is kept, as a rule
/// with a number has no other command than `16` or `17`, and one without none
/// but `13` or `14`.
///
/// The casts lose nothing: what is read fits its place, and an opposite of a
/// rule fits it too ("Cutting rules" negates coefficients within ±32,767 and
/// makes constants −c − 1 or c − 1, the latter of c ≥ −2,147,483,647 only).
pub fn encode(set: &Set) -> Vec<u8> {
    set.basics.iter().flat_map(encode_basic).collect()
}

fn encode_basic(basic: &BasicSet) -> Vec<u8> {
    let mut out = vec![OPEN];
    for division in &basic.divisions {
        out.push(DIVISION);
        out.extend((division.d as u16).to_le_bytes());
        out.extend((division.c as i32).to_le_bytes());
        encode_coefficients(&division.axes, &mut out);
    }
    for rule in &basic.rules {
        encode_head(rule, &mut out);
        out.extend((rule.constant as i32).to_le_bytes());
        encode_coefficients(&rule.axes, &mut out);
        encode_coefficients(&rule.divs, &mut out);
    }
    out
}

/// The command byte, and "the number directly after the command byte":
/// "`13` and `14` .. are what is written for" number 0.
fn encode_head(rule: &Rule, out: &mut Vec<u8>) {
    out.push(match (rule.kind, rule.number) {
        (Kind::Equality, 0) => EQUALITY,
        (Kind::Inequality, 0) => INEQUALITY,
        (Kind::Equality, _) => NUMBERED_EQUALITY,
        (Kind::Inequality, _) => NUMBERED_INEQUALITY,
    });
    if rule.number != 0 {
        out.extend(rule.number.to_le_bytes());
    }
}

fn encode_coefficients(coefficients: &[i64; 8], out: &mut Vec<u8>) {
    for &k in coefficients {
        out.extend((k as i16).to_le_bytes());
    }
}

pub fn basic_length(basic: &BasicSet) -> usize {
    encode_basic(basic).len()
}

pub fn encoded_length(set: &Set) -> usize {
    set.basics.iter().map(basic_length).sum()
}
