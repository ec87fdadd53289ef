//! `compare PROGRAM COUNT SEED`                a script program against `second` on generated scripts
//! `compare calls PROGRAM COUNT SEED [KIND..]` a line-mode program against `second` on generated calls
//! `compare one PROGRAM`                       a script program against `second` on standard input, for a fuzzer: a difference aborts
//!
//! PROGRAM is one argument; blanks in it part the program from its own arguments (`"second calls"`).
//! PROGRAM has to end with status 0: document 01 gives refusals a line of output and no status.

use generate::{calls, scripts};
use hexscript::describe;
use hexscript::runner::{difference, output_of, Score};
use hexscript::tokens::unhex;
use std::io::Read;
use std::process::ExitCode;

const USAGE: &str = "compare PROGRAM COUNT SEED | compare calls PROGRAM COUNT SEED [KIND..] | compare one PROGRAM";

/// Calls fed to one run of PROGRAM: if it breaks off, only the rest of these goes unanswered.
const BATCH: u64 = 500;

fn program(words: &str) -> Vec<String> {
    words.split_whitespace().map(str::to_string).collect()
}

fn compare_scripts(program: &[String], count: u64, seed: u64) -> ExitCode {
    let mut score = Score::default();
    for index in 0..count {
        let script = scripts::script(seed, index);
        let expected = second::run_script(&script);
        let found = output_of(program, &script);
        let good = found.as_ref() == Ok(&expected);
        score.add(good, || {
            let story = match found {
                Ok(found) => difference(&expected, &found),
                Err(e) => format!("{e}\n"),
            };
            format!("script {index} of seed {seed}: {story}  script:\n{}", describe::script(&script))
        });
    }
    score.finish()
}

fn compare_calls(program: &[String], count: u64, seed: u64, kinds: &[&str]) -> Result<ExitCode, String> {
    if let Some(kind) = kinds.iter().find(|k| !calls::KINDS.contains(k)) {
        return Err(format!("no kind '{kind}'; kinds: {}", calls::KINDS.join(" ")));
    }
    let kinds = if kinds.is_empty() { &calls::KINDS[..] } else { kinds };
    let mut score = Score::default();
    for start in (0..count).step_by(BATCH as usize) {
        let lines: Vec<String> = (start..count.min(start + BATCH)).map(|i| calls::call(seed, i, kinds)).collect();
        let input = lines.iter().map(|l| format!("{l}\n")).collect::<String>();
        let output = output_of(program, input.as_bytes()).unwrap_or_else(|e| format!("({e})").into_bytes());
        let output = String::from_utf8_lossy(&output);
        let mut answers = output.lines();
        for (i, line) in lines.iter().enumerate() {
            let (expected, found) = (second::run_call(line), answers.next().unwrap_or("(no line)"));
            score.add(found == expected, || {
                let at = start + i as u64;
                let story = match line.strip_prefix("states ") {
                    Some(walk) => walk_story(walk, &expected, found),
                    None => format!("{}\n  expected {expected}\n  found    {found}", describe::call(line)),
                };
                format!("call {at} of seed {seed}:\n{story}")
            });
        }
        let more = answers.count();
        if more > 0 {
            score.add(false, || format!("{more} lines more than calls"));
        }
    }
    Ok(score.finish())
}

/// A walk up to the first call that says something else, in the form of a stored case.
fn walk_story(walk: &str, expected: &str, found: &str) -> String {
    let (expected, found): (Vec<&str>, Vec<&str>) = (expected.split(" ; ").collect(), found.split(" ; ").collect());
    let same = expected.iter().zip(&found).take_while(|(e, f)| e == f).count();
    let last = same.min(expected.len() - 1);
    let steps: Vec<String> = walk.split(" ; ").take(last + 1).map(step_tokens).collect();
    let found = found.get(same).unwrap_or(&"(nothing)");
    format!("call states {}\nanswer {}\n  found at last {found}", steps.join(" ;\n  "), expected[..=last].join(" ; "))
}

/// A step of a walk with its divisions or its rule in tokens.
fn step_tokens(step: &str) -> String {
    let word = |(place, word): (usize, &str)| match (step.split(' ').next(), place) {
        (Some("start"), 2) | (Some("add"), 1) => {
            let bytes = unhex(word).unwrap_or_default();
            format!("[ {} ]", describe::set(&bytes).replace('\n', " "))
        }
        _ => word.to_string(),
    };
    step.split(' ').enumerate().map(word).collect::<Vec<_>>().join(" ")
}

fn compare_one(program: &[String]) -> Result<ExitCode, String> {
    let mut script = Vec::new();
    std::io::stdin().read_to_end(&mut script).map_err(|e| e.to_string())?;
    let expected = second::run_script(&script);
    if output_of(program, &script) != Ok(expected) {
        std::process::abort();
    }
    Ok(ExitCode::SUCCESS)
}

fn run(words: &[&str]) -> Result<ExitCode, String> {
    let number = |w: &str| w.parse::<u64>().map_err(|_| format!("'{w}' is no number"));
    match words {
        ["calls", name, count, seed, kinds @ ..] => compare_calls(&program(name), number(count)?, number(seed)?, kinds),
        ["one", name] => compare_one(&program(name)),
        [name, count, seed] => Ok(compare_scripts(&program(name), number(count)?, number(seed)?)),
        _ => Err(USAGE.to_string()),
    }
}

fn main() -> ExitCode {
    let arguments: Vec<String> = std::env::args().skip(1).collect();
    let words: Vec<&str> = arguments.iter().map(String::as_str).collect();
    run(&words).unwrap_or_else(|e| {
        eprintln!("{e}");
        println!("0 passed, 1 failed");
        ExitCode::FAILURE
    })
}

#[cfg(test)]
mod tests {
    use super::walk_story;

    #[test]
    fn a_walk_is_told_up_to_the_first_difference() {
        let rule = format!("1405000000ffff{}", "00".repeat(30));
        let story = walk_story(&format!("start 1 - ; add {rule} ; mark 3 ; back 3"), "point ; empty ; empty ; empty", "point ; wide");
        let told = "call states start 1 [  ] ;\n  add [ 14 i32:5 i16:-1,0,0,0,0,0,0,0 i16:0,0,0,0,0,0,0,0 ]";
        assert_eq!(story, format!("{told}\nanswer point ; empty\n  found at last wide"));
        assert!(walk_story("start 1 -", "point", "point ; point").ends_with("answer point\n  found at last point"));
    }
}
