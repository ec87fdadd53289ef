//! A program that gives wrong answers is found, and the status says so.

use std::process::Command;

fn found(arguments: &[&str]) {
    let out = Command::new(env!("CARGO_BIN_EXE_meaning")).args(arguments).output().expect("meaning runs");
    let text = String::from_utf8_lossy(&out.stdout).into_owned();
    assert!(!out.status.success());
    assert!(text.lines().last().is_some_and(|line| line.starts_with("0 passed, ")), "{text}");
}

#[test]
fn a_wrong_program_is_found() {
    found(&["3", "1", "cat"]);
}

#[test]
fn wrong_counts_are_found() {
    found(&["counts", "30", "1", "cat"]);
}

#[test]
fn wrong_ranges_are_found() {
    found(&["ranges", "30", "1", "cat"]);
}

#[test]
fn wrong_extremes_are_found() {
    found(&["extremes", "30", "1", "cat"]);
}

#[test]
fn wrong_walks_are_found() {
    found(&["states", "30", "1", "cat"]);
}
