//! Line mode: one library call a line, one answer a line.

use crate::algebra::{complement, difference, intersection, union, unwatched};
use crate::ask::{holder, member, part, search, Sides, Table};
use crate::bytes::{encode, parse, read_division, read_rule, split_command, DIVISION};
use crate::count::{count, counts, Count};
use crate::extreme::{extreme, Aim, Extreme};
use crate::fleet::fleet;
use crate::model::{Division, Kind, Point, Rule, Set};
use crate::range::{range, Limits, Range, Searched};
use crate::refusal;
use crate::script::search_words;
use crate::states::{word, Desk, Said, Step};
use crate::test::test;

/// A table's size is any up to this; a longer one makes a bad line.
pub const LARGEST_ROOM: usize = 1_000_000;

/// The answer to one line, without a newline.
pub fn run_call(line: &str) -> String {
    answer(line).unwrap_or_else(|| "bad line".to_string())
}

/// None for an ill-formed line.
fn answer(line: &str) -> Option<String> {
    let (name, rest) = line.split_once(' ')?;
    if name == "states" {
        return call_states(rest);
    }
    let mut fields = Fields(rest.split(' ').collect());
    let n = fields.axes()?;
    let answer = match name {
        "member" => call_member(n, &mut fields)?,
        "search" => call_search(n, &mut fields)?,
        "count" => call_count(n, &mut fields)?,
        "counts" => call_counts(n, &mut fields)?,
        "union" | "intersection" | "difference" => call_pair(name, n, &mut fields)?,
        "complement" => call_complement(n, &mut fields)?,
        "range" => call_range(n, &mut fields)?,
        "test" => call_test(n, &mut fields)?,
        "check" => call_check(n, &mut fields)?,
        "part" => call_part(n, &mut fields)?,
        "holder" => call_holder(n, &mut fields)?,
        "fleet" => call_fleet(n, &mut fields)?,
        "greatest" => call_extreme(Aim::Greatest, n, &mut fields)?,
        "least" => call_extreme(Aim::Least, n, &mut fields)?,
        _ => return None,
    };
    Some(answer)
}

fn call_member(n: u8, fields: &mut Fields) -> Option<String> {
    let set = fields.bytes()?;
    let point = fields.point()?;
    fields.end()?;
    let inside = parse(n, &set).and_then(|set| member(&set, &point));
    Some(match inside {
        Ok(true) => "in".to_string(),
        Ok(false) => "out".to_string(),
        Err(number) => format!("refused {number}"),
    })
}

fn call_search(n: u8, fields: &mut Fields) -> Option<String> {
    let set = fields.bytes()?;
    let limit = fields.limit()?;
    let sides = Sides { low: fields.point()?, high: fields.point()? };
    fields.end()?;
    let found = parse(n, &set).and_then(|set| search(&set, &sides, limit));
    Some(match found {
        Ok(found) => search_words(&found),
        Err(number) => format!("refused {number}"),
    })
}

fn call_count(n: u8, fields: &mut Fields) -> Option<String> {
    let set = fields.bytes()?;
    let limit = fields.limit()?;
    let sides = Sides { low: fields.point()?, high: fields.point()? };
    fields.end()?;
    Some(count_words(parse(n, &set).and_then(|set| count(&set, &sides, limit))))
}

fn call_counts(n: u8, fields: &mut Fields) -> Option<String> {
    let set = fields.bytes()?;
    let (limit, axis) = (fields.limit()?, fields.count()?);
    let sides = Sides { low: fields.point()?, high: fields.point()? };
    fields.end()?;
    Some(count_words(parse(n, &set).and_then(|set| counts(&set, &sides, axis, limit))))
}

/// `count`, all points, those with each value where an axis was chosen, and the tally; `spent` and the tally.
fn count_words(counted: Result<Count, u8>) -> String {
    match counted {
        Ok(Count::Whole(whole, each, tested)) => {
            let numbers: Vec<String> = [&[whole], &each[..], &[tested]].concat().iter().map(u32::to_string).collect();
            format!("count {}", numbers.join(" "))
        }
        Ok(Count::Spent(tested)) => format!("spent {tested}"),
        Err(number) => format!("refused {number}"),
    }
}

fn call_pair(name: &str, n: u8, fields: &mut Fields) -> Option<String> {
    let room = fields.room()?;
    let (first, second) = (fields.bytes()?, fields.bytes()?);
    fields.end()?;
    let run = || {
        let (a, b) = (parse(n, &first)?, parse(n, &second)?);
        match name {
            "union" => union(&a, &b),
            "intersection" => intersection(&a, &b, &mut unwatched),
            _ => difference(&a, &b, &mut unwatched),
        }
    };
    Some(table_words(room, run()))
}

fn call_complement(n: u8, fields: &mut Fields) -> Option<String> {
    let room = fields.room()?;
    let source = fields.bytes()?;
    fields.end()?;
    let result = parse(n, &source).and_then(|set| complement(&set, &mut unwatched));
    Some(table_words(room, result))
}

fn call_range(n: u8, fields: &mut Fields) -> Option<String> {
    let room = fields.room()?;
    let set = fields.bytes()?;
    let limits = Limits { set: fields.limit()?, difference: fields.limit()? };
    let sides = Sides { low: fields.point()?, high: fields.point()? };
    fields.end()?;
    let ranged = parse(n, &set).and_then(|set| range(&set, &sides, limits));
    let words = ranged.as_ref().map_or(String::new(), |(range, _)| range_words(range));
    Some(match fill_table(room, ranged.map(|(_, difference)| difference)) {
        (Ok(length), table) => format!("{words} | {length} {table}"),
        (Err(number), table) => format!("refused {number} {table}"),
    })
}

fn range_words(range: &Range) -> String {
    let words = |point: &[i32]| point.iter().map(i32::to_string).collect::<Vec<_>>().join(" ");
    match range {
        Range::Sure => "sure".to_string(),
        Range::Never => "never".to_string(),
        Range::Depends(inside, outside) => format!("depends {} / {}", words(inside), words(outside)),
        Range::Spent(Searched::Set) => "spent 1".to_string(),
        Range::Spent(Searched::Difference) => "spent 2".to_string(),
    }
}

/// The result's length, or the refusal's number, and the whole table: "Result
/// tables are all 0 after a refusal, and 0 past the result after success"; a
/// result longer than its table is 11.
fn fill_table(room: usize, result: Result<Set, u8>) -> (Result<usize, u8>, String) {
    let mut table = vec![0; room];
    let placed = result.and_then(|set| {
        let bytes = encode(&set);
        let place = table.get_mut(..bytes.len()).ok_or(refusal::TABLE_FULL)?;
        place.copy_from_slice(&bytes);
        Ok(bytes.len())
    });
    (placed, hex(&table))
}

fn table_words(room: usize, result: Result<Set, u8>) -> String {
    match fill_table(room, result) {
        (Ok(length), table) => format!("gives {length} {table}"),
        (Err(number), table) => format!("refused {number} {table}"),
    }
}

/// Divisions and rules of basic set k are tested as they are stored.
fn call_test(n: u8, fields: &mut Fields) -> Option<String> {
    let bytes = fields.bytes()?;
    let k = fields.count()?;
    fields.end()?;
    let set = match parse(n, &bytes) {
        Ok(set) => set,
        Err(number) => return Some(format!("refused {number}")),
    };
    Some(match set.basic(k) {
        None => "none".to_string(),
        Some(basic) => {
            let outcome = test(set.n, basic);
            format!("{} {} {}", outcome.answer.word(), outcome.pivots, outcome.built)
        }
    })
}

fn call_check(n: u8, fields: &mut Fields) -> Option<String> {
    let bytes = fields.bytes()?;
    fields.end()?;
    Some(parse(n, &bytes).err().unwrap_or(0).to_string())
}

fn call_part(n: u8, fields: &mut Fields) -> Option<String> {
    let bytes = fields.bytes()?;
    let k = fields.count()?;
    fields.end()?;
    let part = part(n, &bytes, k);
    Some(format!("{} {}", part.offset, part.length))
}

fn call_holder(n: u8, fields: &mut Fields) -> Option<String> {
    let (first, second) = (fields.bytes()?, fields.bytes()?);
    let point = fields.point()?;
    fields.end()?;
    let (table, part) = holder(n, &first, &second, &point);
    let word = match table {
        Table::First => "first",
        Table::Second => "second",
    };
    Some(format!("{word} {} {}", part.offset, part.length))
}

/// As many coordinates as the line has.
fn call_fleet(n: u8, fields: &mut Fields) -> Option<String> {
    let set = fields.bytes()?;
    let coordinates = fields.coordinates()?;
    Some(match parse(n, &set).and_then(|set| fleet(&set, &coordinates)) {
        Ok(found) => format!("{} {}", found.mask, found.count),
        Err(number) => format!("refused {number}"),
    })
}

fn call_extreme(aim: Aim, n: u8, fields: &mut Fields) -> Option<String> {
    let set = fields.bytes()?;
    let k = fields.count()?;
    let expression = fields.expression()?;
    fields.end()?;
    Some(match parse(n, &set).and_then(|set| extreme(&set, k, aim, &expression)) {
        Ok(Extreme::Value(numerator, denominator)) => format!("value {numerator} {denominator}"),
        Ok(Extreme::Empty) => "empty".to_string(),
        Ok(Extreme::Unbounded) => "unbounded".to_string(),
        Ok(Extreme::Wide) => "wide".to_string(),
        Ok(Extreme::Long) => "long".to_string(),
        Err(number) => format!("refused {number}"),
    })
}

/// The calls of a walk, on a desk of its own.
fn call_states(walk: &str) -> Option<String> {
    let mut desk = Desk::default();
    let words = read_walk(walk)?.iter().map(|step| state_words(desk.take(step))).collect::<Vec<_>>();
    Some(words.join(" ; "))
}

/// The steps of a walk, parted by ` ; `.
pub fn read_walk(walk: &str) -> Option<Vec<Step>> {
    walk.split(" ; ").map(read_step).collect()
}

fn read_step(step: &str) -> Option<Step> {
    let mut fields = Fields(step.split(' ').collect());
    let step = match fields.next()? {
        "start" => Step::Start(fields.axes()?, fields.divisions()?),
        "add" => Step::Add(fields.rule()?),
        "mark" => Step::Mark(fields.count()?),
        "back" => Step::Back(fields.count()?),
        _ => return None,
    };
    fields.end()?;
    Some(step)
}

/// The state's word; before the first good start `none`.
fn state_words(said: Said) -> String {
    match said {
        Ok(Some(says)) => word(says).to_string(),
        Ok(None) => "none".to_string(),
        Err(number) => format!("refused {number}"),
    }
}

/// The fields still to be read, each one giving None where it is ill-formed.
struct Fields<'a>(std::collections::VecDeque<&'a str>);

impl<'a> Fields<'a> {
    fn next(&mut self) -> Option<&'a str> {
        self.0.pop_front()
    }

    fn end(&self) -> Option<()> {
        self.0.is_empty().then_some(())
    }

    /// Digits only.
    fn count(&mut self) -> Option<u64> {
        let field = self.next()?;
        let digits = field.bytes().all(|b| b.is_ascii_digit());
        digits.then(|| field.parse().ok())?
    }

    fn axes(&mut self) -> Option<u8> {
        u8::try_from(self.count()?).ok()
    }

    fn limit(&mut self) -> Option<u32> {
        u32::try_from(self.count()?).ok()
    }

    fn room(&mut self) -> Option<usize> {
        let room = usize::try_from(self.count()?).ok()?;
        (room <= LARGEST_ROOM).then_some(room)
    }

    /// Digits with at most one minus sign before them.
    fn coordinate(&mut self) -> Option<i32> {
        let field = self.next()?;
        let digits = field.strip_prefix('-').unwrap_or(field);
        let well_formed = digits.bytes().all(|b| b.is_ascii_digit());
        well_formed.then(|| field.parse().ok())?
    }

    fn point(&mut self) -> Option<Point> {
        let mut point: Point = [0; 8];
        for coordinate in &mut point {
            *coordinate = self.coordinate()?;
        }
        Some(point)
    }

    fn coordinates(&mut self) -> Option<Vec<i32>> {
        (0..self.0.len()).map(|_| self.coordinate()).collect()
    }

    /// An inequality's numbers, each of 32 bits.
    fn expression(&mut self) -> Option<Rule> {
        let constant = self.coordinate()?.into();
        let (axes, divs) = (self.point()?, self.point()?);
        let (axes, divs) = (axes.map(i64::from), divs.map(i64::from));
        Some(Rule { kind: Kind::Inequality, number: 0, constant, axes, divs })
    }

    fn bytes(&mut self) -> Option<Vec<u8>> {
        unhex(self.next()?)
    }

    /// Division commands and nothing else.
    fn divisions(&mut self) -> Option<Vec<Division>> {
        let bytes = self.bytes()?;
        let mut rest = &bytes[..];
        let mut divisions = Vec::new();
        while !rest.is_empty() {
            let (command, body, after) = split_command(rest).ok()?;
            divisions.push((command == DIVISION).then(|| read_division(body))?);
            rest = after;
        }
        Some(divisions)
    }

    /// One rule command, which no state refuses with 17: a `16` or `17` with
    /// number 0 is none.
    fn rule(&mut self) -> Option<Rule> {
        let bytes = self.bytes()?;
        let (command, body, after) = split_command(&bytes).ok()?;
        after.is_empty().then(|| read_rule(command, body).ok())?
    }
}

/// Lower-case hex; `-` for the empty string.
pub fn hex(bytes: &[u8]) -> String {
    const DIGITS: [char; 16] = [
        '0', '1', '2', '3', '4', '5', '6', '7', '8', '9', 'a', 'b', 'c', 'd', 'e', 'f',
    ];
    if bytes.is_empty() {
        return "-".to_string();
    }
    let pair = |b: &u8| [DIGITS[usize::from(b >> 4)], DIGITS[usize::from(b & 15)]];
    bytes.iter().flat_map(pair).collect()
}

/// The bytes of lower-case hex or `-`; None where it is neither.
pub fn unhex(text: &str) -> Option<Vec<u8>> {
    if text == "-" {
        return Some(Vec::new());
    }
    if text.is_empty() || !text.len().is_multiple_of(2) {
        return None;
    }
    text.as_bytes()
        .chunks(2)
        .map(|pair| Some(nibble(pair[0])? << 4 | nibble(pair[1])?))
        .collect()
}

fn nibble(digit: u8) -> Option<u8> {
    match digit {
        b'0'..=b'9' => Some(digit - b'0'),
        b'a'..=b'f' => Some(digit - b'a' + 10),
        _ => None,
    }
}
