//! Document 01's commands as tables, "Bytes of a set" and "The script program", and those that document 02 has added,
//! with the words of their text: what is read, written or damaged here goes by them. Only `second` has lengths of its
//! own.

/// A number's place in the bytes: little-endian, signed ones two's complement.
#[derive(Clone, Copy, PartialEq)]
pub struct Field {
    pub name: &'static str,
    pub width: usize,
    pub signed: bool,
}

impl Field {
    pub fn least(&self) -> i64 {
        if self.signed { -1 << (8 * self.width - 1) } else { 0 }
    }

    pub fn greatest(&self) -> i64 {
        (1 << (8 * self.width - usize::from(self.signed))) - 1
    }

    pub fn put(&self, value: i64, out: &mut Vec<u8>) {
        out.extend(&value.to_le_bytes()[..self.width]);
    }

    /// The number in `width` bytes.
    pub fn get(&self, bytes: &[u8]) -> i64 {
        let value = bytes.iter().rev().fold(0, |sum, &byte| sum << 8 | i64::from(byte));
        if value > self.greatest() { value - (1 << (8 * self.width)) } else { value }
    }
}

/// Axes, and divisions of a rule, always have eight places in the bytes.
pub const PLACES: usize = 8;

/// What follows a command's word or code.
#[derive(Clone, Copy, PartialEq)]
pub enum Part {
    One(Field),
    /// A number for each axis.
    Axes(Field),
    /// A number for each division of the basic set.
    Divisions(Field),
    /// In the text only.
    Word(&'static str),
    /// The basic set's number, in the text only.
    Ordinal,
}

impl Part {
    /// Of its numbers, where it has bytes.
    pub fn field(&self) -> Option<&Field> {
        match self {
            Part::One(field) | Part::Axes(field) | Part::Divisions(field) => Some(field),
            Part::Word(_) | Part::Ordinal => None,
        }
    }

    /// Bytes of this part.
    pub const fn length(&self) -> usize {
        match self {
            Part::One(field) => field.width,
            Part::Axes(field) | Part::Divisions(field) => PLACES * field.width,
            Part::Word(_) | Part::Ordinal => 0,
        }
    }

    /// May this part have fewer numbers in the text than places in the bytes?
    fn is_padded(&self) -> bool {
        matches!(self, Part::Axes(_) | Part::Divisions(_))
    }
}

pub struct Command {
    pub word: &'static str,
    pub code: u8,
    pub parts: &'static [Part],
}

impl Command {
    /// Its bytes, the code too, but for the length and the set of a load.
    pub fn length(&self) -> usize {
        1 + self.parts.iter().map(Part::length).sum::<usize>()
    }

    /// Where a part of it begins in its bytes, the code at 0.
    pub fn place(&self, part: Part) -> Option<usize> {
        let before = self.parts.iter().position(|own| *own == part)?;
        Some(1 + self.parts[..before].iter().map(Part::length).sum::<usize>())
    }

    /// The numbers of a part of it, from its bytes.
    pub fn numbers(&self, part: Part, bytes: &[u8]) -> Option<Vec<i64>> {
        let (start, field) = (self.place(part)?, part.field()?);
        let own = bytes.get(start..start + part.length())?;
        Some(own.chunks(field.width).map(|number| field.get(number)).collect())
    }

    /// May `full` stand before it?
    pub fn is_padded(&self) -> bool {
        self.parts.iter().any(Part::is_padded)
    }

    pub fn is_rule(&self) -> bool {
        self.parts.contains(&OF_DIVISIONS)
    }

    pub fn is_division(&self) -> bool {
        self.parts.contains(&OF_AXES) && !self.is_rule()
    }

    pub fn is_equality(&self) -> bool {
        self.word == EQUALITY_WORD || self.parts.contains(&Part::Word(EQUALITY_WORD))
    }
}

pub const AXES: u8 = 0x10;
pub const BASIC: u8 = 0x11;
pub const DIVISION: u8 = 0x12;
pub const EQUALITY: u8 = 0x13;
pub const INEQUALITY: u8 = 0x14;
pub const NUMBERED_EQUALITY: u8 = 0x16;
pub const NUMBERED_INEQUALITY: u8 = 0x17;
pub const LOAD: u8 = 0x40;
pub const END: u8 = 0x00;

pub const fn field(name: &'static str, width: usize, signed: bool) -> Field {
    Field { name, width, signed }
}

const fn unsigned(name: &'static str, width: usize) -> Part {
    Part::One(field(name, width, false))
}

const EQUALITY_WORD: &str = "eq";
const INEQUALITY_WORD: &str = "ge";
/// Before these two, with the rule's own number.
const NUMBERED_WORD: &str = "rule";

const SET_NUMBER: Part = unsigned("set number", 1);
pub const DIVISOR: Part = unsigned("divisor", 2);
pub const RULE_NUMBER: Part = unsigned("rule number", 2);
pub const CONSTANT: Part = Part::One(field("constant", 4, true));
pub const OF_AXES: Part = Part::Axes(field("axis coefficient", 2, true));
pub const OF_DIVISIONS: Part = Part::Divisions(field("division coefficient", 2, true));
const POINT: Part = Part::Axes(field("coordinate", 4, true));

const fn command(word: &'static str, code: u8, parts: &'static [Part]) -> Command {
    Command { word, code, parts }
}

const THREE_SETS: &[Part] = &[SET_NUMBER, SET_NUMBER, SET_NUMBER];
const BOX: &[Part] =
    &[SET_NUMBER, Part::Word("limit"), unsigned("limit", 4), Part::Word("from"), POINT, Part::Word("to"), POINT];

pub const SCRIPT: &[Command] = &[
    command("axes", AXES, &[unsigned("count of axes", 1)]),
    command("load", LOAD, &[SET_NUMBER]),
    command("union", 0x41, THREE_SETS),
    command("intersection", 0x42, THREE_SETS),
    command("difference", 0x43, THREE_SETS),
    command("complement", 0x44, &[SET_NUMBER, SET_NUMBER]),
    command("list", 0x45, &[SET_NUMBER]),
    command("member", 0x46, &[SET_NUMBER, POINT]),
    command("search", 0x47, BOX),
    command("end", END, &[]),
];

pub const SET: &[Command] = &[
    command("basic", BASIC, &[Part::Ordinal]),
    command("div", DIVISION, &[DIVISOR, CONSTANT, OF_AXES]),
    command(EQUALITY_WORD, EQUALITY, &[CONSTANT, OF_AXES, OF_DIVISIONS]),
    command(INEQUALITY_WORD, INEQUALITY, &[CONSTANT, OF_AXES, OF_DIVISIONS]),
    command(NUMBERED_WORD, NUMBERED_EQUALITY, &numbered(EQUALITY_WORD)),
    command(NUMBERED_WORD, NUMBERED_INEQUALITY, &numbered(INEQUALITY_WORD)),
];

const fn numbered(word: &'static str) -> [Part; 5] {
    [RULE_NUMBER, Part::Word(word), CONSTANT, OF_AXES, OF_DIVISIONS]
}

/// The length of a load's set.
pub const SET_LENGTH: Field = field("length of a set", 2, false);

/// "A basic set holds at most 8 divisions and 48 rules. .. A set is a list of at most 32 basic sets"; each division has
/// a place in the rules.
pub const MOST_DIVISIONS: usize = PLACES;
pub const MOST_RULES: usize = 48;
pub const MOST_BASIC_SETS: usize = 32;

/// The most bytes of a division and of a rule: `15` of document 02 (request 1), which is to come, has a divisor of 4
/// bytes, `16` and `17` have a number before the constant.
pub const LONGEST_DIVISION: usize = 1 + 4 + CONSTANT.length() + OF_AXES.length();
pub const LONGEST_RULE: usize = 1 + RULE_NUMBER.length() + CONSTANT.length() + OF_AXES.length() + OF_DIVISIONS.length();

/// The most bytes of a basic set, 2,073, and of a set, 66,336.
pub const LONGEST_BASIC_SET: usize = 1 + MOST_DIVISIONS * LONGEST_DIVISION + MOST_RULES * LONGEST_RULE;
pub const LONGEST_SET: usize = MOST_BASIC_SETS * LONGEST_BASIC_SET;

/// The command of this code.
pub fn find(commands: &'static [Command], code: u8) -> Option<&'static Command> {
    commands.iter().find(|command| command.code == code)
}

/// The command that the bytes begin with, and its bytes, a load's set too; or why there is none.
pub fn cut<'a>(commands: &'static [Command], bytes: &'a [u8]) -> Result<(&'static Command, &'a [u8]), &'static str> {
    let code = bytes.first().ok_or("no command")?;
    let command = find(commands, *code).ok_or("unknown command")?;
    let mut length = command.length();
    if command.code == LOAD {
        let set = bytes.get(length..length + SET_LENGTH.width).ok_or("command cut off")?;
        length += SET_LENGTH.width + SET_LENGTH.get(set) as usize;
    }
    let own = bytes.get(..length).ok_or("command cut off")?;
    Ok((command, own))
}

/// A load's set, in the bytes of the load.
pub fn set_of(load: &[u8]) -> &[u8] {
    let head = 1 + SET_NUMBER.length() + SET_LENGTH.width;
    &load[head..]
}
