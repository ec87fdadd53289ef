//! "The script program": `pitsets`, from input bytes to output bytes.

use crate::algebra::{complement, difference, intersection, union, unwatched};
use crate::ask::{member, search, Search, Sides};
use crate::bytes::{check_axes, encoded_length, parse};
use crate::listing::list_set;
use crate::model::{Point, Set};
use crate::refusal;

/// "Sets are 0 to 3, empty at first, 8,000 bytes each."
const SETS: usize = 4;
pub const TABLE_BYTES: usize = 8_000;

const END: u8 = 0x00;
const AXES: u8 = 0x10;
const LOAD: u8 = 0x40;
const UNION: u8 = 0x41;
const INTERSECTION: u8 = 0x42;
const DIFFERENCE: u8 = 0x43;
const COMPLEMENT: u8 = 0x44;
const LIST: u8 = 0x45;
const MEMBER: u8 = 0x46;
const SEARCH: u8 = 0x47;

/// All that the program prints for this input.
pub fn run_script(input: &[u8]) -> Vec<u8> {
    let mut out = String::new();
    if let Err(number) = run(input, &mut out) {
        // 1, 2, 3 and 15 of the script itself end it.
        out.push_str(&refused(number));
    }
    out.into_bytes()
}

fn refused(number: u8) -> String {
    format!("refused {number}\n")
}

fn run(input: &[u8], out: &mut String) -> Result<(), u8> {
    let (n, mut rest) = open(input)?;
    out.push_str(&format!("axes {n}\n"));
    let mut board = Board::new(n)?;
    loop {
        let (command, body, after) = next_command(rest)?;
        rest = after;
        if command == END {
            out.push_str("end\n");
            return Ok(());
        }
        // These refusals leave the script going on after the command.
        match check_set_numbers(command, body).and_then(|()| board.execute(command, body)) {
            Ok(lines) => out.push_str(&lines),
            Err(number) => out.push_str(&refused(number)),
        }
    }
}

/// The first command, which must be `10`: refusals 3 (empty), 2, 15, 3, 1.
fn open(input: &[u8]) -> Result<(u8, &[u8]), u8> {
    let &command = input.first().ok_or(refusal::CUT_OFF)?;
    check_known(command)?;
    if command != AXES {
        return Err(refusal::AXES_COMMAND_PLACE);
    }
    let &n = input.get(1).ok_or(refusal::CUT_OFF)?;
    check_axes(n)?;
    Ok((n, &input[2..]))
}

/// A later command, what belongs to it, and what follows: refusals 3 (no
/// `00`), 2, 15, 3.
fn next_command(input: &[u8]) -> Result<(u8, &[u8], &[u8]), u8> {
    let (&command, rest) = input.split_first().ok_or(refusal::CUT_OFF)?;
    check_known(command)?;
    if command == AXES {
        return Err(refusal::AXES_COMMAND_PLACE);
    }
    let length = body_length(command, rest).ok_or(refusal::CUT_OFF)?;
    let (body, after) = rest.split_at_checked(length).ok_or(refusal::CUT_OFF)?;
    Ok((command, body, after))
}

fn check_known(command: u8) -> Result<(), u8> {
    match command {
        END | AXES | LOAD..=SEARCH => Ok(()),
        _ => Err(refusal::UNKNOWN_COMMAND),
    }
}

/// Bytes after the command byte; None if a load's length is cut off.
fn body_length(command: u8, rest: &[u8]) -> Option<usize> {
    Some(match command {
        END => 0,
        LOAD => 3 + usize::from(u16::from_le_bytes([*rest.get(1)?, *rest.get(2)?])),
        UNION | INTERSECTION | DIFFERENCE => 3,
        COMPLEMENT => 2,
        LIST => 1,
        MEMBER => 1 + 32,
        _ => 1 + 4 + 64,
    })
}

/// Refusal 14, for each set number of the command.
fn check_set_numbers(command: u8, body: &[u8]) -> Result<(), u8> {
    let count = match command {
        UNION | INTERSECTION | DIFFERENCE => 3,
        COMPLEMENT => 2,
        _ => 1,
    };
    if body[..count].iter().any(|&number| usize::from(number) >= SETS) {
        return Err(refusal::SET_NUMBER);
    }
    Ok(())
}

/// The script's sets.
struct Board {
    n: u8,
    sets: [Set; SETS],
}

impl Board {
    fn new(n: u8) -> Result<Board, u8> {
        let axes = check_axes(n)?;
        Ok(Board { n, sets: std::array::from_fn(|_| Set::empty(axes)) })
    }

    fn set(&self, number: u8) -> &Set {
        &self.sets[usize::from(number)]
    }

    /// One complete command with good set numbers; gives what it prints.
    fn execute(&mut self, command: u8, body: &[u8]) -> Result<String, u8> {
        match command {
            LIST => Ok(list_set(body[0], self.set(body[0]))),
            MEMBER => self.member(body),
            SEARCH => self.search(body),
            _ => self.assign(command, body),
        }
    }

    /// `40` to `44`: a refusal leaves the target set.
    fn assign(&mut self, command: u8, body: &[u8]) -> Result<String, u8> {
        let result = match command {
            LOAD => parse(self.n, &body[3..])?,
            UNION => union(self.set(body[1]), self.set(body[2]))?,
            INTERSECTION => {
                intersection(self.set(body[1]), self.set(body[2]), &mut unwatched)?
            }
            DIFFERENCE => difference(self.set(body[1]), self.set(body[2]), &mut unwatched)?,
            _ => complement(self.set(body[1]), &mut unwatched)?,
        };
        if encoded_length(&result) > TABLE_BYTES {
            return Err(refusal::TABLE_FULL);
        }
        self.sets[usize::from(body[0])] = result;
        Ok("done\n".to_string())
    }

    fn member(&self, body: &[u8]) -> Result<String, u8> {
        let inside = member(self.set(body[0]), &read_point(&body[1..]))?;
        Ok(format!("{}\n", if inside { "in" } else { "out" }))
    }

    fn search(&self, body: &[u8]) -> Result<String, u8> {
        let limit = u32::from_le_bytes([body[1], body[2], body[3], body[4]]);
        let sides = Sides { low: read_point(&body[5..]), high: read_point(&body[37..]) };
        let found = search(self.set(body[0]), &sides, limit)?;
        Ok(format!("{}\n", search_words(&found)))
    }
}

/// The first 32 bytes as eight signed numbers.
fn read_point(bytes: &[u8]) -> Point {
    std::array::from_fn(|i| {
        let b = &bytes[4 * i..];
        i32::from_le_bytes([b[0], b[1], b[2], b[3]])
    })
}

/// `at` with n coordinates, `none` or `spent`, then the tally.
pub fn search_words(found: &Search) -> String {
    match found {
        Search::At(point, tested) => {
            let coordinates: Vec<String> = point.iter().map(i32::to_string).collect();
            format!("at {} {tested}", coordinates.join(" "))
        }
        Search::None(tested) => format!("none {tested}"),
        Search::Spent(tested) => format!("spent {tested}"),
    }
}
