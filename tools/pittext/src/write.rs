//! The bytes of a script to text. Bytes that are no command follow as they are, so every script can be written.

use crate::counts::Counts;
use hexscript::layout::{cut, set_of, Command, Part, END, LOAD, SCRIPT, SET};
use std::fmt::Write;

/// Raw bytes in one line.
const BYTES_A_LINE: usize = 16;

/// The text of these bytes: reading it gives them back.
pub fn write(script: &[u8]) -> String {
    let mut text = String::new();
    let mut counts = Counts::default();
    let mut at = 0;
    while at < script.len() {
        let (command, own) = match cut(SCRIPT, &script[at..]) {
            Ok(found) => found,
            Err(reason) => {
                push_raw(&mut text, "bytes", &script[at..], at, reason);
                break;
            }
        };
        push_command(&mut text, "", command, own, &mut counts);
        at += own.len();
        if command.code == LOAD {
            let set = set_of(own);
            push_set(&mut text, &mut counts, set, at - set.len());
        }
        if command.code == END {
            push_raw(&mut text, "bytes", &script[at..], at, "after the end");
            break;
        }
    }
    text
}

/// The commands of a set that begins at byte `start` of the script.
fn push_set(text: &mut String, counts: &mut Counts, set: &[u8], start: usize) {
    let mut at = 0;
    while at < set.len() {
        match cut(SET, &set[at..]) {
            Ok((command, own)) => {
                push_command(text, "  ", command, own, counts);
                at += own.len();
            }
            Err(reason) => {
                push_raw(text, "  setbytes", &set[at..], start + at, reason);
                return;
            }
        }
    }
}

/// One line for a command with its own bytes; `full` where a place that the counts leave out is not 0.
fn push_command(text: &mut String, indent: &str, command: &Command, own: &[u8], counts: &mut Counts) {
    let body = &own[1..];
    let fits = !command.is_padded() || counts.axes.is_some();
    let line = match line(command, body, counts).filter(|_| fits) {
        Some(line) => line,
        None => format!("full {}", line(command, body, &counts.full()).unwrap_or_default()),
    };
    let _ = writeln!(text, "{indent}{line}");
    counts.pass(command, body);
}

/// The line with as many numbers as the counts say; None where one of the others is not 0.
fn line(command: &Command, body: &[u8], counts: &Counts) -> Option<String> {
    let mut line = command.word.to_string();
    let mut rest = body;
    for part in command.parts {
        let (own, after) = rest.split_at(part.length());
        match part {
            Part::One(field) | Part::Axes(field) | Part::Divisions(field) => {
                let (told, untold) = own.split_at(counts.words(part) * field.width);
                if untold.iter().any(|&byte| byte != 0) {
                    return None;
                }
                told.chunks(field.width).for_each(|number| line.push_str(&format!(" {}", field.get(number))));
            }
            Part::Word(word) => line.push_str(&format!(" {word}")),
            Part::Ordinal => line.push_str(&format!(" {}", counts.basics + 1)),
        }
        rest = after;
    }
    Some(line)
}

/// Bytes as they are, the first line with its place in the script and the reason.
fn push_raw(text: &mut String, word: &str, bytes: &[u8], at: usize, reason: &str) {
    for (index, chunk) in bytes.chunks(BYTES_A_LINE).enumerate() {
        text.push_str(word);
        chunk.iter().for_each(|byte| text.push_str(&format!(" {byte:02X}")));
        if index == 0 {
            text.push_str(&format!("  # byte {at}: {reason}"));
        }
        text.push('\n');
    }
}
