//! `pittext bytes < FILE.pit`            text to the bytes of a script
//! `pittext text < SCRIPT`               bytes to text
//! `pittext run PROGRAM FILE.pit`        what PROGRAM prints for the script

use hexscript::runner::output_of;
use std::io::{self, Read, Write};
use std::process::ExitCode;

const USAGE: &str = "pittext bytes < FILE.pit | text < SCRIPT | run PROGRAM FILE.pit";

fn input() -> Result<Vec<u8>, String> {
    let mut bytes = Vec::new();
    io::stdin().lock().read_to_end(&mut bytes).map_err(|e| e.to_string())?;
    Ok(bytes)
}

fn print(bytes: &[u8]) -> Result<(), String> {
    let mut out = io::stdout().lock();
    out.write_all(bytes).and_then(|()| out.flush()).map_err(|e| e.to_string())
}

fn bytes_of(text: &[u8]) -> Result<Vec<u8>, String> {
    let text = std::str::from_utf8(text).map_err(|fault| {
        let before = &text[..fault.valid_up_to()];
        format!("line {}: not UTF-8", 1 + before.iter().filter(|&&byte| byte == b'\n').count())
    })?;
    pittext::read(text).map_err(|fault| fault.to_string())
}

fn run(program: &str, file: &str) -> Result<(), String> {
    let text = std::fs::read(file).map_err(|e| format!("{file}: {e}"))?;
    let script = bytes_of(&text).map_err(|fault| format!("{file}: {fault}"))?;
    print(&output_of(&[program.to_string()], &script)?)
}

fn main() -> ExitCode {
    let arguments: Vec<String> = std::env::args().skip(1).collect();
    let words: Vec<&str> = arguments.iter().map(String::as_str).collect();
    let done = match words[..] {
        ["bytes"] => input().and_then(|text| print(&bytes_of(&text)?)),
        ["text"] => input().and_then(|script| print(pittext::write(&script).as_bytes())),
        ["run", program, file] => run(program, file),
        _ => {
            eprintln!("{USAGE}");
            return ExitCode::from(2);
        }
    };
    match done {
        Ok(()) => ExitCode::SUCCESS,
        Err(what) => {
            eprintln!("{what}");
            ExitCode::FAILURE
        }
    }
}
