//! Named states (document 02, request 8): walks mean what they say.

use std::process::Command;

#[test]
fn walks_mean_what_they_say() {
    let out = Command::new(env!("CARGO_BIN_EXE_meaning")).args(["states", "600", "2"]).output().expect("meaning runs");
    let text = String::from_utf8_lossy(&out.stdout).into_owned();
    assert!(out.status.success() && text.trim_end().ends_with(" passed, 0 failed"), "{text}");
}
