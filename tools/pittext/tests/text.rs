//! The text form line by line: bytes of each command, refusals that can be said, faults.

use hexscript::tokens::{bytes, Names};
use pittext::{read, write};
use std::process::{Command, Output, Stdio};

fn tokens(text: &str) -> Vec<u8> {
    bytes(text, &Names::new()).expect("good tokens")
}

#[test]
fn every_command_has_its_bytes() {
    let table = [
        ("axes 2", "10 02"),
        ("load 3", "40 03 { }"),
        ("load 1\nset 0 has 2\nbasic 1\n  basic 2 # two\n\n", "40 01 { 11 11 }"),
        ("load 1\ndiv 65535 -2147483648 -32768 32767", "40 01 { 12 u16:65535 i32:-2147483648 i16:-32768,32767 zeros:12 }"),
        ("load 1\ndiv 1 2 3 4\neq -1 5 6 7", "40 01 { 12 u16:1 i32:2 i16:3,4 zeros:12 13 i32:-1 i16:5,6 zeros:12 i16:7 zeros:14 }"),
        ("load 1\nge 2147483647 0 -1\nlist 1", "40 01 { 14 i32:2147483647 i16:0,-1 zeros:28 } 45 01"),
        ("load 1\nrule 7 ge 2 0 -1", "40 01 { 17 u16:7 i32:2 i16:0,-1 zeros:28 }"),
        ("load 1\nrule 65535 eq 2 0 -1", "40 01 { 16 u16:65535 i32:2 i16:0,-1 zeros:28 }"),
        ("load 1\nrule 0 eq 2 0 -1", "40 01 { 16 00 00 i32:2 i16:0,-1 zeros:28 }"),
        ("load 1\ndiv 1 2 3 4\nrule 1 ge -1 5 6 7", "40 01 { 12 u16:1 i32:2 i16:3,4 zeros:12 17 01 00 i32:-1 i16:5,6 zeros:12 i16:7 zeros:14 }"),
        ("load 1\nfull rule 258 ge 0 1 2 3 4 5 6 7 8 9 10 11 12 13 14 15 16", "40 01 { 17 02 01 i32:0 i16:1,2,3,4,5,6,7,8,9,10,11,12,13,14,15,16 }"),
        ("load 1\nfull div 1 2 3 4 5 6 7 8 9 10", "40 01 { 12 u16:1 i32:2 i16:3,4,5,6,7,8,9,10 }"),
        ("load 1\nfull ge 0 1 2 3 4 5 6 7 8 9 10 11 12 13 14 15 16", "40 01 { 14 i32:0 i16:1,2,3,4,5,6,7,8,9,10,11,12,13,14,15,16 }"),
        ("load 1\nsetbytes 99 aF\nbytes 01 02\nbytes 03", "40 01 { 99 AF } 01 02 03"),
        ("load 1\nbasic 1\nfull member 0 1 2 3 4 5 6 7 8", "40 01 { 11 } 46 00 i32:1,2,3,4,5,6,7,8"),
        ("union 1 2 3", "41 01 02 03"),
        ("intersection 0 0 0", "42 00 00 00"),
        ("difference 0 1 255", "43 00 01 FF"),
        ("complement 1 0", "44 01 00"),
        ("list 7", "45 07"),
        ("member 1 -2147483648 5", "46 01 i32:-2147483648,5 zeros:24"),
        ("search 1 limit 4294967295 from -1 0 to 2 3", "47 01 u32:4294967295 i32:-1,0 zeros:24 i32:2,3 zeros:24"),
        ("end", "00"),
    ];
    for (text, expected) in table {
        let script = [tokens("10 02"), tokens(expected)].concat();
        assert_eq!(read(&format!("axes 2\n{text}\n")), Ok(script), "{text}");
    }
}

#[test]
fn bytes_become_these_lines() {
    let script = tokens(
        "10 01 40 00 { 11 12 u16:30 i32:-4 i16:1 zeros:14 14 i32:5 i16:-1 zeros:14 i16:2 zeros:14
         11 13 i32:0 i16:0,5 zeros:28 17 u16:9 i32:1 i16:-1 zeros:30 16 u16:0 i32:1 i16:0,1 zeros:28 15 } 46 00 i32:7 zeros:28 46 00 i32:7,1 zeros:24 47 01 u32:9 zeros:64 45 00 40 00 01",
    );
    let text = "axes 1\nload 0\n  basic 1\n  div 30 -4 1\n  ge 5 -1 2\n  basic 2\n  full eq 0 0 5 0 0 0 0 0 0 0 0 0 0 0 0 0 0\n\
                \x20 rule 9 ge 1 -1\n  full rule 0 eq 1 0 1 0 0 0 0 0 0 0 0 0 0 0 0 0 0\n\
                \x20 setbytes 15  # byte 183: unknown command\nmember 0 7\nfull member 0 7 1 0 0 0 0 0 0\n\
                search 1 limit 9 from 0 to 0\nlist 0\nbytes 40 00 01  # byte 324: command cut off\n";
    assert_eq!(write(&script), text);
    assert_eq!(write(&[0x00, 0x45]), "end\nbytes 45  # byte 1: after the end\n");
    assert_eq!(write(&[0x46; 34]), format!("full member 70{}\n", " 1179010630".repeat(8)));
}

/// `count` basic sets without rules.
fn basics(count: usize) -> String {
    (1..=count).map(|k| format!("basic {k}\n")).collect()
}

#[test]
fn every_refusal_can_be_said() {
    let long = format!("load 0\n{}", (1..=9).map(|k| format!("basic {k}\n{}", "ge 0 1\n".repeat(25))).collect::<String>());
    let table = [
        (1, "axes 0".to_string()),
        (1, "axes 9".to_string()),
        (2, "axes 1\nbytes 99".to_string()),
        (2, "axes 1\nload 0\nsetbytes 99".to_string()),
        (3, "axes 1".to_string()),
        (3, "axes 1\nload 0\nbasic 1\nsetbytes 14 00".to_string()),
        (4, "axes 1\nload 0\nge 0 1".to_string()),
        (5, "axes 1\nload 0\nbasic 1\nge 0 1\ndiv 2 0 1".to_string()),
        (6, "axes 1\nload 0\nbasic 1\ndiv 0 0 1".to_string()),
        (7, "axes 1\nload 0\nbasic 1\nge 0 -32768".to_string()),
        (8, "axes 1\nload 0\nbasic 1\nfull ge 0 1 5 0 0 0 0 0 0 0 0 0 0 0 0 0 0".to_string()),
        (9, format!("axes 1\nload 0\nbasic 1\n{}", "ge 0 1\n".repeat(49))),
        (9, format!("axes 1\nload 0\nbasic 1\n{}", "div 2 0 1\n".repeat(9))),
        (9, format!("axes 1\nload 0\n{}", basics(33))),
        (10, format!("axes 1\nload 0\n{}load 1\nbasic 1\nunion 2 0 1", basics(32))),
        (11, format!("axes 1\n{long}")),
        (12, "axes 1\nmember 0 1048577".to_string()),
        (12, "axes 1\nsearch 0 limit 1 from 5 to 1048577".to_string()),
        (13, "axes 1\nsearch 0 limit 0 from 5 to 4".to_string()),
        (14, "axes 1\nlist 4".to_string()),
        (15, "list 0".to_string()),
        (15, "axes 1\naxes 1".to_string()),
        (17, "axes 1\nload 0\nbasic 1\nrule 0 ge 0 1".to_string()),
        (17, "axes 1\nload 0\nbasic 1\nrule 0 eq 0 -32768".to_string()),
        (7, "axes 1\nload 0\nbasic 1\nrule 1 eq 0 -32768".to_string()),
    ];
    for (number, text) in table {
        let output = second::run_script(&read(&text).expect("good text"));
        let output = String::from_utf8_lossy(&output).into_owned();
        assert!(output.contains(&format!("refused {number}\n")), "{text}\n{output}");
    }
}

#[test]
fn faults_are_told_with_their_line() {
    let table = [
        ("axes 1\n\n# a\ngee 0 1", "line 4: unknown word 'gee'"),
        ("axes 256", "line 1: 256 does not fit: count of axes from 0 to 255"),
        ("axes 1\nload 0\nbasic 1\nge 0 40000", "line 4: 40000 does not fit: axis coefficient from -32768 to 32767"),
        ("axes 1\nload 0\ndiv -1 0 1", "line 3: -1 does not fit: divisor from 0 to 65535"),
        ("axes 1\nload 0\nge 2147483648 1", "line 3: 2147483648 does not fit: constant from -2147483648 to 2147483647"),
        ("axes 1\nmember 0 99999999999999999999", "line 2: 99999999999999999999 does not fit: coordinate from -2147483648 to 2147483647"),
        ("axes 1\nload 0\nbasic 1\nrule 65536 ge 0 1", "line 4: 65536 does not fit: rule number from 0 to 65535"),
        ("axes 1\nload 0\nrule -1 eq 0 1", "line 3: -1 does not fit: rule number from 0 to 65535"),
        ("axes 1\nload 0\nrule 5", "line 3: 'rule M' stands before 'eq' or 'ge'"),
        ("axes 1\nload 0\nrule 5 div 2 0 1", "line 3: 'rule M' stands before 'eq' or 'ge'"),
        ("axes 1\nload 0\nrule ge 0 1", "line 3: 'rule M' stands before 'eq' or 'ge'"),
        ("axes 1\nload 0\nrule 5 ge 0 1 2", "line 3: 'rule' takes rule number, 'ge', constant, 1 axis coefficient, 0 division coefficients: 4 words, 5 given"),
        ("axes 1\nrule 5 ge 0 1", "line 2: 'rule' stands in no load"),
        ("load 0\nrule 5 ge 0 1", "line 2: 'rule' before any 'axes': only 'full rule' can stand here"),
        ("axes 1\nlist 0x1", "line 2: '0x1' is no whole number"),
        ("axes 1\nlist +1", "line 2: '+1' is no whole number"),
        ("axes 2\nload 0\nbasic 1\ndiv 2 0 1 0\nge 0 1 0", "line 5: 'ge' takes constant, 2 axis coefficients, 1 division coefficient: 4 words, 3 given"),
        ("axes 1\nunion 0 1", "line 2: 'union' takes set number, set number, set number: 3 words, 2 given"),
        ("end 0", "line 1: 'end' takes nothing: 0 words, 1 given"),
        ("axes 1\nsearch 0 limit 5 to 0 from 1", "line 2: 'from' expected, not 'to'"),
        ("load 0\nge 0 1", "line 2: 'ge' before any 'axes': only 'full ge' can stand here"),
        ("axes 1\nge 0 1", "line 2: 'ge' stands in no load"),
        ("axes 1\nload 0\nlist 0\nbasic 1", "line 4: 'basic' stands in no load"),
        ("axes 1\nload 0\nbasic 2", "line 3: 'basic 2' where 'basic 1' is next"),
        ("axes 1\nload 0\nset 0 has 2\nbasic 1\nend", "line 3: the set has 1 basic sets here, not 2"),
        ("axes 1\nload 0\nbasic 1\nset 0 has 1", "line 4: 'set M has K' comes first in a load, and once"),
        ("axes 1\nload 0\nset 0 with 1", "line 3: a listing opens with 'set M has K'"),
        ("axes 1\nset 0 has 1", "line 2: 'set' stands in no load"),
        ("axes 1\nfull list 0", "line 2: 'full' goes with div, ge, eq, rule, member or search, not with 'list'"),
        ("axes 1\nfull", "line 2: 'full' goes with div, ge, eq, rule, member or search, not with ''"),
        ("bytes 9", "line 1: '9' is no byte of two hexadecimal digits"),
        ("bytes +9", "line 1: '+9' is no byte of two hexadecimal digits"),
        ("setbytes 99", "line 1: 'setbytes' stands in no load"),
    ];
    for (text, fault) in table {
        assert_eq!(read(text).expect_err(text).to_string(), fault);
    }
    let long = format!("axes 1\nload 0\n{}end\n", "ge 0 1\n".repeat(1_772));
    assert_eq!(read(&long).expect_err("long").to_string(), "line 2: the set is 65564 bytes long, over 65535");
}

fn pittext(arguments: &[&str], input: &[u8]) -> Output {
    let mut child = Command::new(env!("CARGO_BIN_EXE_pittext"))
        .args(arguments)
        .stdin(Stdio::piped())
        .stdout(Stdio::piped())
        .stderr(Stdio::piped())
        .spawn()
        .expect("pittext runs");
    std::io::Write::write_all(&mut child.stdin.take().expect("input"), input).expect("written");
    child.wait_with_output().expect("pittext ends")
}

#[test]
fn the_program_writes_and_fails() {
    let good = pittext(&["bytes"], b"axes 1\nend\n");
    assert_eq!((good.status.code(), good.stdout), (Some(0), vec![0x10, 1, 0]));
    let back = pittext(&["text"], &[0x10, 1, 0]);
    assert_eq!((back.status.code(), back.stdout), (Some(0), b"axes 1\nend\n".to_vec()));
    for (text, fault) in [(&b"axes 1\nlist\n"[..], "line 2: "), (b"axes 1\n\n\xFF", "line 3: not UTF-8")] {
        let bad = pittext(&["bytes"], text);
        assert_eq!((bad.status.code(), bad.stdout), (Some(1), vec![]));
        assert!(String::from_utf8_lossy(&bad.stderr).starts_with(fault));
    }
    let file = std::env::temp_dir().join(format!("pittext-{}.pit", std::process::id()));
    std::fs::write(&file, "axes 1\nlist 0\nend\n").expect("written");
    let ran = pittext(&["run", "cat", file.to_str().expect("a name")], b"");
    std::fs::remove_file(&file).expect("removed");
    assert_eq!((ran.status.code(), ran.stdout), (Some(0), vec![0x10, 1, 0x45, 0, 0]));
    assert_eq!(pittext(&["run", "cat", "no such file"], b"").status.code(), Some(1));
}
