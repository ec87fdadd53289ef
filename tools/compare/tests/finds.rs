//! A program that only hands back its input is found wrong, and the status says so.

use std::process::Command;

fn last_line(arguments: &[&str]) -> (bool, String) {
    let out = Command::new(env!("CARGO_BIN_EXE_compare")).args(arguments).output().expect("compare runs");
    let text = String::from_utf8_lossy(&out.stdout).into_owned();
    (out.status.success(), text.lines().last().unwrap_or("").to_string())
}

#[test]
fn a_wrong_script_program_is_found() {
    assert_eq!(last_line(&["cat", "20", "1"]), (false, "0 passed, 20 failed".to_string()));
}

#[test]
fn a_wrong_line_program_is_found() {
    assert_eq!(last_line(&["calls", "cat", "20", "1"]), (false, "0 passed, 20 failed".to_string()));
}

#[test]
fn a_wrong_walk_is_found() {
    assert_eq!(last_line(&["calls", "cat", "20", "1", "states"]), (false, "0 passed, 20 failed".to_string()));
}

#[test]
fn a_missing_program_is_found() {
    assert_eq!(last_line(&["./no-such-program", "3", "1"]), (false, "0 passed, 3 failed".to_string()));
}
