//! `hexscript FILE CASE` writes the bytes of a stored script.
//! `hexscript run PROGRAM [ARGS..] -- FILES..` runs PROGRAM on each stored script.
//! `hexscript calls PROGRAM [ARGS..] -- FILES..` feeds PROGRAM the stored calls of each file.

use hexscript::describe;
use hexscript::files::{calls, cases};
use hexscript::runner::{difference, output_of, Score};
use std::io::Write;
use std::process::ExitCode;

fn read(file: &str) -> Result<String, String> {
    std::fs::read_to_string(file).map_err(|e| format!("{file}: {e}"))
}

fn write_case(file: &str, name: &str) -> Result<ExitCode, String> {
    let all = cases(&read(file)?).map_err(|e| format!("{file}: {e}"))?;
    let case = all.iter().find(|c| c.name == name).ok_or(format!("{file}: no case '{name}'"))?;
    std::io::stdout().write_all(&case.input).map_err(|e| e.to_string())?;
    Ok(ExitCode::SUCCESS)
}

fn run_file(program: &[String], file: &str, score: &mut Score) -> Result<(), String> {
    for case in cases(&read(file)?).map_err(|e| format!("{file}: {e}"))? {
        match output_of(program, &case.input) {
            Ok(found) => score.add(found == case.output, || {
                let story = difference(&case.output, &found);
                format!("{file}, case {}: {story}  script:\n{}", case.name, describe::script(&case.input))
            }),
            Err(e) => score.add(false, || format!("{file}, case {}: {e}", case.name)),
        }
    }
    Ok(())
}

fn call_file(program: &[String], file: &str, score: &mut Score) -> Result<(), String> {
    let stored = calls(&read(file)?).map_err(|e| format!("{file}: {e}"))?;
    let input: String = stored.iter().map(|c| format!("{}\n", c.call)).collect();
    let output = output_of(program, input.as_bytes()).map_err(|e| format!("{file}: {e}"))?;
    let output = String::from_utf8_lossy(&output);
    let mut answers = output.lines();
    for c in &stored {
        let found = answers.next().unwrap_or("(no line)");
        score.add(found == c.answer, || {
            format!("{file}, line {}:\n{}\n  expected {}\n  found    {found}", c.line, describe::call(&c.call), c.answer)
        });
    }
    let more = answers.count();
    score.add(more == 0, || format!("{file}: {more} lines more than calls"));
    Ok(())
}

fn over_files(arguments: &[String], one: fn(&[String], &str, &mut Score) -> Result<(), String>) -> Result<ExitCode, String> {
    let cut = arguments.iter().position(|a| a == "--").ok_or("no '--' before the files")?;
    let mut score = Score::default();
    for file in &arguments[cut + 1..] {
        one(&arguments[..cut], file, &mut score)?;
    }
    Ok(score.finish())
}

fn main() -> ExitCode {
    let arguments: Vec<String> = std::env::args().skip(1).collect();
    let result = match arguments.first().map(String::as_str) {
        Some("run") => over_files(&arguments[1..], run_file),
        Some("calls") => over_files(&arguments[1..], call_file),
        Some(file) if arguments.len() == 2 => write_case(file, &arguments[1]),
        _ => Err("hexscript FILE CASE | run PROGRAM [ARGS..] -- FILES.. | calls PROGRAM [ARGS..] -- FILES..".to_string()),
    };
    result.unwrap_or_else(|e| {
        eprintln!("{e}");
        println!("0 passed, 1 failed");
        ExitCode::FAILURE
    })
}
