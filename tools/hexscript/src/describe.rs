//! Bytes back into readable tokens: a difference is shown as text that can become a stored case.

use crate::layout::{cut, set_of, Command, Field, Part, END, LOAD, SCRIPT, SET};

fn raw(bytes: &[u8]) -> String {
    bytes.iter().map(|b| format!("{b:02X}")).collect::<Vec<_>>().join(" ")
}

/// Numbers of one field: bytes as they are, the others as `tokens` reads them.
fn numbers(field: &Field, bytes: &[u8]) -> String {
    if field.width == 1 {
        return raw(bytes);
    }
    let sign = if field.signed { 'i' } else { 'u' };
    let numbers: Vec<String> = bytes.chunks(field.width).map(|number| field.get(number).to_string()).collect();
    format!("{sign}{}:{}", 8 * field.width, numbers.join(","))
}

/// The code and the numbers of a command, without the set of a load.
fn tokens(command: &Command, bytes: &[u8]) -> String {
    let mut out = raw(&bytes[..1]);
    let mut rest = &bytes[1..];
    for part in command.parts {
        let (own, after) = rest.split_at(part.length());
        if let Part::One(field) | Part::Axes(field) | Part::Divisions(field) = part {
            out.push_str(&format!(" {}", numbers(field, own)));
        }
        rest = after;
    }
    out
}

/// The commands of the table that the bytes begin with, one a line; the other bytes follow as they are.
fn lines(commands: &'static [Command], bytes: &[u8], line: fn(&Command, &[u8]) -> String) -> String {
    let mut lines = Vec::new();
    let mut rest = bytes;
    while let Ok((command, own)) = cut(commands, rest) {
        if command.code == END {
            break;
        }
        lines.push(line(command, own));
        rest = &rest[own.len()..];
    }
    if !rest.is_empty() {
        lines.push(raw(rest));
    }
    lines.join("\n")
}

/// A set in tokens, a command a line; bytes that are no whole command follow as they are.
pub fn set(bytes: &[u8]) -> String {
    lines(SET, bytes, tokens)
}

fn script_line(command: &Command, bytes: &[u8]) -> String {
    let (tokens, word) = (tokens(command, bytes), command.word);
    if command.code == LOAD {
        let inner = set(set_of(bytes)).replace('\n', "\n  ");
        return format!("{tokens} {{  # {word}\n  {inner}\n}}");
    }
    format!("{tokens}  # {word}")
}

/// A script in tokens, a command a line; from `00`, an unknown or a cut-off command on, the bytes.
pub fn script(bytes: &[u8]) -> String {
    lines(SCRIPT, bytes, script_line)
}

/// A line-mode call with its sets in tokens.
pub fn call(line: &str) -> String {
    let sets = |i: usize, word: &str, kind: &str| match kind {
        "union" | "intersection" | "difference" => i == 3 || i == 4,
        "complement" | "range" => i == 3,
        "holder" => i == 2 || i == 3,
        _ => i == 2 && !word.is_empty(),
    };
    let kind = line.split_whitespace().next().unwrap_or("");
    let words = line.split_whitespace().enumerate().map(|(i, word)| match crate::tokens::unhex(word) {
        Some(bytes) if sets(i, word, kind) => format!("[\n  {}\n]", set(&bytes).replace('\n', "\n  ")),
        _ => word.to_string(),
    });
    format!("call {}", words.collect::<Vec<_>>().join(" "))
}
