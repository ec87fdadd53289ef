//! Stored cases as text: `tests/scripts/*.txt` and `tests/calls/*.txt`.
//!
//! A file of scripts: `case NAME`, lines of tokens, `---`, the exact output (a line a line).
//! A file of calls: `call ..` (its byte strings in `[ .. ]`, over several lines if need be),
//! then `answer ..` in the same form. In both, `#` opens a comment, blank lines do not count
//! and `let NAME TOKENS` names bytes for later use; it goes on over lines while a bracket is open.

use crate::tokens::{bytes, hex, open_brackets, Names};

#[derive(Debug, PartialEq)]
pub struct Case {
    pub name: String,
    pub input: Vec<u8>,
    pub output: Vec<u8>,
}

#[derive(Debug, PartialEq)]
pub struct Call {
    pub line: usize,
    pub call: String,
    pub answer: String,
}

/// A statement: the number of its first line, its keyword, and the rest of it.
struct Statement {
    line: usize,
    word: String,
    rest: String,
}

const WORDS: [&str; 5] = ["let", "case", "---", "call", "answer"];

/// Cuts a file into statements. No output line of a script begins with one of the keywords.
fn statements(text: &str) -> Result<Vec<Statement>, String> {
    let mut out: Vec<Statement> = Vec::new();
    for (i, raw) in text.lines().enumerate() {
        let line = raw.split('#').next().unwrap_or("").trim();
        if line.is_empty() {
            continue;
        }
        let (word, rest) = line.split_once(char::is_whitespace).unwrap_or((line, ""));
        if WORDS.contains(&word) {
            out.push(Statement { line: i + 1, word: word.to_string(), rest: format!("{}\n", rest.trim()) });
        } else {
            let last = out.last_mut().ok_or(format!("line {}: text before any case", i + 1))?;
            let closed_let = last.word == "let" && open_brackets(&last.rest) == 0;
            if closed_let {
                return Err(format!("line {}: text after a closed let", i + 1));
            }
            last.rest.push_str(line);
            last.rest.push('\n');
        }
    }
    Ok(out)
}

fn define(s: &Statement, names: &mut Names) -> Result<(), String> {
    let (name, tokens) = s.rest.split_once(char::is_whitespace).unwrap_or((s.rest.trim(), ""));
    let value = bytes(tokens, names).map_err(|e| format!("line {}: {e}", s.line))?;
    match names.insert(name.to_string(), value) {
        None => Ok(()),
        Some(_) => Err(format!("line {}: '{name}' is named twice", s.line)),
    }
}

/// The cases of a file of scripts.
pub fn cases(text: &str) -> Result<Vec<Case>, String> {
    let mut names = Names::new();
    let mut out: Vec<Case> = Vec::new();
    let mut open = false;
    for s in statements(text)? {
        let fault = |e: String| format!("line {}: {e}", s.line);
        match s.word.as_str() {
            "let" => define(&s, &mut names)?,
            "case" if !open => {
                let (name, tokens) = s.rest.split_once('\n').unwrap_or((&s.rest, ""));
                if out.iter().any(|c| c.name == name) {
                    return Err(fault(format!("case '{name}' stands twice")));
                }
                let input = bytes(tokens, &names).map_err(fault)?;
                out.push(Case { name: name.to_string(), input, output: Vec::new() });
                open = true;
            }
            "---" if open => {
                let output = s.rest.trim_start_matches('\n').as_bytes().to_vec();
                out.last_mut().expect("an open case").output = output;
                open = false;
            }
            word => return Err(fault(format!("'{word}' is out of place"))),
        }
    }
    if open { Err("the last case has no '---'".to_string()) } else { Ok(out) }
}

/// Puts hex in the place of each `[ .. ]` and one blank in the place of several.
fn fill(text: &str, names: &Names) -> Result<String, String> {
    let mut out = String::new();
    let mut rest = text;
    while let Some((before, after)) = rest.split_once('[') {
        let (inside, behind) = after.split_once(']').ok_or("no ']'")?;
        out.push_str(before);
        out.push_str(&format!(" {} ", hex(&bytes(inside, names)?)));
        rest = behind;
    }
    out.push_str(rest);
    Ok(out.split_whitespace().collect::<Vec<_>>().join(" "))
}

/// The calls of a file of calls.
pub fn calls(text: &str) -> Result<Vec<Call>, String> {
    let mut names = Names::new();
    let mut out: Vec<Call> = Vec::new();
    let mut open = false;
    for s in statements(text)? {
        let fault = |e: String| format!("line {}: {e}", s.line);
        match s.word.as_str() {
            "let" => define(&s, &mut names)?,
            "call" if !open => {
                let call = fill(&s.rest, &names).map_err(fault)?;
                out.push(Call { line: s.line, call, answer: String::new() });
                open = true;
            }
            "answer" if open => {
                out.last_mut().expect("an open call").answer = fill(&s.rest, &names).map_err(fault)?;
                open = false;
            }
            word => return Err(fault(format!("'{word}' is out of place"))),
        }
    }
    if open { Err("the last call has no answer".to_string()) } else { Ok(out) }
}
