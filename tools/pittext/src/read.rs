//! Text to the bytes of a script.

use crate::counts::Counts;
use hexscript::layout::{field, Command, Field, Part, SCRIPT, SET, SET_LENGTH};
use std::fmt;

/// The first line that cannot be written as bytes.
#[derive(Debug, PartialEq)]
pub struct Fault {
    pub line: usize,
    pub what: String,
}

impl fmt::Display for Fault {
    fn fmt(&self, out: &mut fmt::Formatter) -> fmt::Result {
        write!(out, "line {}: {}", self.line, self.what)
    }
}

/// A set between its `load` line and the next command.
struct Load {
    line: usize,
    set: Vec<u8>,
    /// Line and count of `set M has K`.
    stated: Option<(usize, i64)>,
}

#[derive(Default)]
struct Reader {
    script: Vec<u8>,
    counts: Counts,
    load: Option<Load>,
}

/// The bytes that the text tells.
pub fn read(text: &str) -> Result<Vec<u8>, Fault> {
    let mut reader = Reader::default();
    for (index, line) in text.lines().enumerate() {
        let told = line.split('#').next().unwrap_or("");
        let words: Vec<&str> = told.split_whitespace().collect();
        if let Some(word) = words.iter().find(|&&word| word != "full") {
            reader.close_load_before(word)?;
        }
        reader.line(index + 1, &words).map_err(|what| Fault { line: index + 1, what })?;
    }
    reader.close_load()?;
    Ok(reader.script)
}

fn find(commands: &'static [Command], word: &str) -> Option<&'static Command> {
    commands.iter().find(|command| command.word == word)
}

/// The first word of the text behind the command's own that is always the same, and its place.
fn fixed_word(command: &Command) -> Option<(usize, &'static str)> {
    command.parts.iter().enumerate().find_map(|(place, part)| match part {
        Part::Word(word) => Some((place, *word)),
        _ => None,
    })
}

/// The command of a set that these words tell: where several begin with the same word, as `rule M ge` and `rule M eq`,
/// that with the same fixed word too.
fn find_in_set(word: &str, rest: &[&str]) -> Result<Option<&'static Command>, String> {
    let named: Vec<&'static Command> = SET.iter().filter(|command| command.word == word).collect();
    if named.len() <= 1 {
        return Ok(named.first().copied());
    }
    let told = |command: &Command| fixed_word(command).is_some_and(|(place, fixed)| rest.get(place) == Some(&fixed));
    let fixed: Vec<&str> = named.iter().filter_map(|command| fixed_word(command)).map(|(_, fixed)| fixed).collect();
    let fault = || format!("'{word} M' stands before '{}'", fixed.join("' or '"));
    named.into_iter().find(|command| told(command)).map(Some).ok_or_else(fault)
}

impl Reader {
    /// One line; `line` is its number.
    fn line(&mut self, line: usize, words: &[&str]) -> Result<(), String> {
        match words {
            [] => Ok(()),
            ["full", rest @ ..] => self.full(rest),
            ["bytes", rest @ ..] => raw(rest, &mut self.script),
            ["setbytes", rest @ ..] => raw(rest, &mut self.open_load("setbytes")?.set),
            ["set", rest @ ..] => self.stated(line, rest),
            [word, rest @ ..] => {
                self.command(word, rest, self.counts)?;
                if *word == "load" {
                    self.load = Some(Load { line, set: Vec::new(), stated: None });
                }
                Ok(())
            }
        }
    }

    fn full(&mut self, words: &[&str]) -> Result<(), String> {
        let (word, rest) = words.split_first().unwrap_or((&"", &[]));
        let command = find(SCRIPT, word).or(find(SET, word));
        if !command.is_some_and(Command::is_padded) {
            return Err(format!("'full' goes with div, ge, eq, rule, member or search, not with '{word}'"));
        }
        self.command(word, rest, self.counts.full())
    }

    /// A command of the script, or of the open load's set.
    fn command(&mut self, word: &str, rest: &[&str], counts: Counts) -> Result<(), String> {
        let (command, out) = match (find(SCRIPT, word), find_in_set(word, rest)?) {
            (Some(command), _) => (command, &mut self.script),
            (None, Some(command)) => (command, &mut self.open_load(word)?.set),
            (None, None) => return Err(format!("unknown word '{word}'")),
        };
        let body = parts(command, rest, counts)?;
        out.push(command.code);
        out.extend(&body);
        self.counts.pass(command, &body);
        Ok(())
    }

    fn open_load(&mut self, word: &str) -> Result<&mut Load, String> {
        self.load.as_mut().ok_or_else(|| format!("'{word}' stands in no load"))
    }

    /// `set M has K`, the first line of a listing.
    fn stated(&mut self, line: usize, rest: &[&str]) -> Result<(), String> {
        let load = self.open_load("set")?;
        let [number, "has", count] = rest else {
            return Err("a listing opens with 'set M has K'".to_string());
        };
        if load.stated.is_some() || !load.set.is_empty() {
            return Err("'set M has K' comes first in a load, and once".to_string());
        }
        whole(number, &field("set number", 1, false))?;
        let count = whole(count, &field("count of basic sets", 2, false))?;
        load.stated = Some((line, count));
        Ok(())
    }

    /// A load ends at the next command of the script.
    fn close_load_before(&mut self, word: &str) -> Result<(), Fault> {
        if word == "bytes" || find(SCRIPT, word).is_some() {
            self.close_load()
        } else {
            Ok(())
        }
    }

    fn close_load(&mut self) -> Result<(), Fault> {
        let Some(load) = self.load.take() else { return Ok(()) };
        let found = self.counts.basics;
        if let Some((line, count)) = load.stated.filter(|&(_, count)| count != found as i64) {
            return Err(Fault { line, what: format!("the set has {found} basic sets here, not {count}") });
        }
        let length = load.set.len() as i64;
        if length > SET_LENGTH.greatest() {
            let what = format!("the set is {length} bytes long, over {}", SET_LENGTH.greatest());
            return Err(Fault { line: load.line, what });
        }
        SET_LENGTH.put(length, &mut self.script);
        self.script.extend(load.set);
        Ok(())
    }
}

/// Bytes in hexadecimal, two digits each.
fn raw(words: &[&str], out: &mut Vec<u8>) -> Result<(), String> {
    for word in words {
        let digits = word.len() == 2 && word.chars().all(|digit| digit.is_ascii_hexdigit());
        let byte = u8::from_str_radix(word, 16).ok().filter(|_| digits);
        out.push(byte.ok_or_else(|| format!("'{word}' is no byte of two hexadecimal digits"))?);
    }
    Ok(())
}

/// The bytes after a command's code.
fn parts(command: &Command, words: &[&str], counts: Counts) -> Result<Vec<u8>, String> {
    if command.is_padded() && counts.axes.is_none() {
        return Err(format!("'{}' before any 'axes': only 'full {}' can stand here", command.word, command.word));
    }
    let expected: usize = command.parts.iter().map(|part| counts.words(part)).sum();
    if words.len() != expected {
        return Err(format!("{}: {expected} words, {} given", takes(command, &counts), words.len()));
    }
    let mut out = Vec::new();
    let mut rest = words;
    for part in command.parts {
        let (own, after) = rest.split_at(counts.words(part));
        match part {
            Part::One(field) | Part::Axes(field) | Part::Divisions(field) => {
                let start = out.len();
                for word in own {
                    field.put(whole(word, field)?, &mut out);
                }
                out.resize(start + part.length(), 0);
            }
            Part::Word(word) if own[0] != *word => return Err(format!("'{word}' expected, not '{}'", own[0])),
            Part::Word(_) => {}
            Part::Ordinal => ordinal(own[0], &counts)?,
        }
        rest = after;
    }
    Ok(out)
}

/// What belongs after the command's word.
fn takes(command: &Command, counts: &Counts) -> String {
    let name = |part: &Part| match part {
        Part::One(field) => field.name.to_string(),
        Part::Axes(field) | Part::Divisions(field) => {
            let count = counts.words(part);
            format!("{count} {}{}", field.name, if count == 1 { "" } else { "s" })
        }
        Part::Word(word) => format!("'{word}'"),
        Part::Ordinal => "its number".to_string(),
    };
    let names: Vec<String> = command.parts.iter().map(name).collect();
    let list = if names.is_empty() { "nothing".to_string() } else { names.join(", ") };
    format!("'{}' takes {list}", command.word)
}

/// A listing counts its basic sets.
fn ordinal(word: &str, counts: &Counts) -> Result<(), String> {
    let next = counts.basics + 1;
    if word.parse() == Ok(next) {
        Ok(())
    } else {
        Err(format!("'basic {word}' where 'basic {next}' is next"))
    }
}

/// A decimal number that fits its field.
fn whole(word: &str, field: &Field) -> Result<i64, String> {
    let digits = word.strip_prefix('-').unwrap_or(word);
    if digits.is_empty() || !digits.chars().all(|digit| digit.is_ascii_digit()) {
        return Err(format!("'{word}' is no whole number"));
    }
    let (least, greatest) = (field.least(), field.greatest());
    // What does not fit 64 bits fits no field.
    let value = word.parse().ok().filter(|value| (least..=greatest).contains(value));
    value.ok_or_else(|| format!("{word} does not fit: {} from {least} to {greatest}", field.name))
}
