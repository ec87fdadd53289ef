//! Readable tokens for bytes, so that a person can review a stored case.
//!
//! `14`            a byte in hexadecimal (two digits)
//! `i16:4,-5`      numbers, little-endian: `u16`, `i16`, `u32`, `i32`; a comma joins several
//! `zeros:30`      that many bytes 0
//! `{ .. }`        the bytes inside, after their length in 16 bits (the form of command `40`)
//! `( .. )`        just the bytes inside; `49*( .. )` writes them 49 times
//! `$NAME`         the bytes of an earlier `let NAME ..`

use std::collections::HashMap;

pub type Names = HashMap<String, Vec<u8>>;

/// Splits at blanks; a bracket is a token of its own.
fn split(text: &str) -> Vec<String> {
    let mut spaced = String::new();
    for c in text.chars() {
        if "(){}".contains(c) {
            spaced.push(' ');
            spaced.push(c);
            spaced.push(' ');
        } else {
            spaced.push(c);
        }
    }
    spaced.split_whitespace().map(str::to_string).collect()
}

/// How many brackets are still open at the end of `text`.
pub fn open_brackets(text: &str) -> i32 {
    text.chars().map(|c| if "({[".contains(c) { 1 } else { -i32::from(")}]".contains(c)) }).sum()
}

/// The bytes that `text` stands for.
pub fn bytes(text: &str, names: &Names) -> Result<Vec<u8>, String> {
    let tokens = split(text);
    let mut at = 0;
    let out = group(&tokens, &mut at, None, names)?;
    Ok(out)
}

/// Reads tokens up to the bracket `close`, or to the end where there is none to wait for.
fn group(tokens: &[String], at: &mut usize, close: Option<&str>, names: &Names) -> Result<Vec<u8>, String> {
    let mut out = Vec::new();
    while let Some(token) = tokens.get(*at) {
        *at += 1;
        match token.as_str() {
            ")" | "}" if close == Some(token) => return Ok(out),
            ")" | "}" => return Err(format!("'{token}' closes nothing")),
            "(" => out.extend(group(tokens, at, Some(")"), names)?),
            "{" => {
                let inner = group(tokens, at, Some("}"), names)?;
                let len = u16::try_from(inner.len()).map_err(|_| "over 65,535 bytes in { }".to_string())?;
                out.extend(len.to_le_bytes());
                out.extend(inner);
            }
            _ => match token.strip_suffix('*') {
                Some(count) => {
                    if tokens.get(*at).map(String::as_str) != Some("(") {
                        return Err(format!("'{token}' needs a '('"));
                    }
                    *at += 1;
                    let count: usize = count.parse().map_err(|_| format!("bad count '{token}'"))?;
                    out.extend(group(tokens, at, Some(")"), names)?.repeat(count));
                }
                None => out.extend(single(token, names)?),
            },
        }
    }
    match close {
        None => Ok(out),
        Some(bracket) => Err(format!("no '{bracket}'")),
    }
}

/// The bytes of one token that is not a bracket.
fn single(token: &str, names: &Names) -> Result<Vec<u8>, String> {
    if let Some(name) = token.strip_prefix('$') {
        return names.get(name).cloned().ok_or(format!("no 'let {name}' before its use"));
    }
    if let Some((kind, list)) = token.split_once(':') {
        if kind == "zeros" {
            return list.parse().map(|n| vec![0; n]).map_err(|_| format!("bad count '{token}'"));
        }
        let mut out = Vec::new();
        for number in list.split(',') {
            let value: i64 = number.parse().map_err(|_| format!("bad number '{token}'"))?;
            out.extend(number_bytes(kind, value).ok_or(format!("'{number}' is no {kind}"))?);
        }
        return Ok(out);
    }
    if token.len() != 2 {
        return Err(format!("'{token}' is no token"));
    }
    u8::from_str_radix(token, 16).map(|b| vec![b]).map_err(|_| format!("'{token}' is no byte"))
}

fn number_bytes(kind: &str, value: i64) -> Option<Vec<u8>> {
    match kind {
        "u16" => u16::try_from(value).ok().map(|v| v.to_le_bytes().to_vec()),
        "i16" => i16::try_from(value).ok().map(|v| v.to_le_bytes().to_vec()),
        "u32" => u32::try_from(value).ok().map(|v| v.to_le_bytes().to_vec()),
        "i32" => i32::try_from(value).ok().map(|v| v.to_le_bytes().to_vec()),
        _ => None,
    }
}

/// Lower-case hex; `-` for no bytes (the form of a line-mode call).
pub fn hex(bytes: &[u8]) -> String {
    if bytes.is_empty() {
        return "-".to_string();
    }
    bytes.iter().map(|b| format!("{b:02x}")).collect()
}

/// Bytes of lower- or upper-case hex, or of `-`.
pub fn unhex(text: &str) -> Option<Vec<u8>> {
    if text == "-" {
        return Some(Vec::new());
    }
    if text.len() % 2 != 0 || !text.is_ascii() {
        return None;
    }
    (0..text.len()).step_by(2).map(|i| u8::from_str_radix(&text[i..i + 2], 16).ok()).collect()
}
