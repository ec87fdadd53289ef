//! Runs a program on stored cases and compares byte for byte.

use std::io::Write;
use std::process::{Command, Stdio};

/// How many differences are printed in full; the rest is only counted.
pub const SHOWN: usize = 5;

/// A count of checks that prints the first failures.
#[derive(Default)]
pub struct Score {
    pub passed: usize,
    pub failed: usize,
}

impl Score {
    pub fn add(&mut self, good: bool, story: impl FnOnce() -> String) {
        if good {
            self.passed += 1;
            return;
        }
        self.failed += 1;
        if self.failed <= SHOWN {
            println!("{}\n", story());
        }
    }

    /// The last line of every tool here; the exit status goes with it.
    pub fn finish(&self) -> std::process::ExitCode {
        println!("{} passed, {} failed", self.passed, self.failed);
        std::process::ExitCode::from(u8::from(self.failed > 0))
    }
}

/// The standard output of `program` on `input`; a program that cannot run or fails is an error.
pub fn output_of(program: &[String], input: &[u8]) -> Result<Vec<u8>, String> {
    let (name, arguments) = program.split_first().ok_or("no program given")?;
    let mut child = Command::new(name)
        .args(arguments)
        .stdin(Stdio::piped())
        .stdout(Stdio::piped())
        .spawn()
        .map_err(|e| format!("{name}: {e}"))?;
    let mut pipe = child.stdin.take().expect("a piped input");
    let bytes = input.to_vec();
    // A thread writes, so that a program that prints before it has read all does not block.
    // A program may end before it has read the bytes after `00`: a broken pipe is no fault.
    let writer = std::thread::spawn(move || drop(pipe.write_all(&bytes)));
    let out = child.wait_with_output().map_err(|e| format!("{name}: {e}"))?;
    writer.join().map_err(|_| "the writer failed".to_string())?;
    if out.status.success() {
        Ok(out.stdout)
    } else {
        Err(format!("{name}: {}", out.status))
    }
}

/// Both outputs, with the first line in which they part.
pub fn difference(expected: &[u8], found: &[u8]) -> String {
    let (expected, found) = (String::from_utf8_lossy(expected), String::from_utf8_lossy(found));
    let part = expected.lines().zip(found.lines()).take_while(|(e, f)| e == f).count();
    let from = part.saturating_sub(2);
    let show = |text: &str| text.lines().skip(from).take(8).map(|l| format!("    {l}\n")).collect::<String>();
    format!(
        "first difference in output line {}\n  expected from line {} on:\n{}  found:\n{}",
        part + 1,
        from + 1,
        show(&expected),
        show(&found)
    )
}
