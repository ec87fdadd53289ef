//! `second`: the script program. `second calls`: line mode.

use std::io::{self, BufRead, BufReader, BufWriter, Read, Write};
use std::process::ExitCode;

fn main() -> ExitCode {
    let arguments: Vec<String> = std::env::args_os()
        .skip(1)
        .map(|argument| argument.to_string_lossy().into_owned())
        .collect();
    let words: Vec<&str> = arguments.iter().map(String::as_str).collect();
    let done = match words[..] {
        [] => script_mode(),
        ["calls"] => line_mode(),
        _ => {
            complain("usage: second < script, or: second calls < lines");
            return ExitCode::from(2);
        }
    };
    match done {
        Ok(()) => ExitCode::SUCCESS,
        Err(error) => {
            complain(&format!("second: {error}"));
            ExitCode::FAILURE
        }
    }
}

/// Unlike `eprintln!` this does not panic where nobody listens.
fn complain(message: &str) {
    let _ = writeln!(io::stderr(), "{message}");
}

fn script_mode() -> io::Result<()> {
    let mut input = Vec::new();
    io::stdin().lock().read_to_end(&mut input)?;
    let mut output = io::stdout().lock();
    output.write_all(&second::run_script(&input))?;
    output.flush()
}

fn line_mode() -> io::Result<()> {
    let mut input = BufReader::new(io::stdin().lock());
    let mut output = BufWriter::new(io::stdout().lock());
    let mut line = Vec::new();
    while input.read_until(b'\n', &mut line)? > 0 {
        if line.last() == Some(&b'\n') {
            line.pop();
        }
        let answer = second::run_call(&String::from_utf8_lossy(&line));
        writeln!(output, "{answer}")?;
        line.clear();
        // Who waits for an answer before asking on gets it.
        if input.buffer().is_empty() {
            output.flush()?;
        }
    }
    output.flush()
}
