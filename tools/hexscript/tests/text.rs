//! The text forms: tokens to bytes, cases and calls of a file, bytes back to tokens.

use hexscript::describe;
use hexscript::files::{calls, cases};
use hexscript::tokens::{bytes, hex, unhex, Names};

#[test]
fn tokens_become_bytes() {
    let names = Names::from([("A".to_string(), vec![7, 8])]);
    let written = bytes("11 u16:258 i16:-1,2 i32:-2 u32:4000000000 zeros:2 2*($A) { 01 02 }", &names);
    let expected = vec![
        0x11, 2, 1, 0xFF, 0xFF, 2, 0, 0xFE, 0xFF, 0xFF, 0xFF, 0, 0x28, 0x6B, 0xEE, 0, 0, 7, 8, 7, 8, 2, 0, 1, 2,
    ];
    assert_eq!(written, Ok(expected));
}

#[test]
fn faulty_tokens_are_told() {
    for text in ["1", "zz", "i16:32768", "u8:1", "$B", "(", ")", "{ 11", "3* 11", "( }"] {
        assert!(bytes(text, &Names::new()).is_err(), "{text}");
    }
}

#[test]
fn a_file_of_scripts_is_read() {
    let text = "# heading\nlet A (11 # open\n 12)\ncase one\n10 01 # axes\n$A\n---\naxes 1\n\nend # end\ncase two\n---\nrefused 3\n";
    let all = cases(text).expect("good text");
    assert_eq!(all.len(), 2);
    assert_eq!((all[0].input.as_slice(), all[0].output.as_slice()), (&[0x10, 1, 0x11, 0x12][..], &b"axes 1\nend\n"[..]));
    assert_eq!((all[1].input.len(), all[1].output.as_slice()), (0, &b"refused 3\n"[..]));
    assert!(cases("case a\n10\n").is_err());
    assert!(cases("---\n").is_err());
}

#[test]
fn a_file_of_calls_is_read() {
    let text = "let A 11\ncall union 1 2 [ $A ]\n  [ ]\nanswer gives 1 [ $A 00 ]\n";
    let all = calls(text).expect("good text");
    assert_eq!((all[0].call.as_str(), all[0].answer.as_str()), ("union 1 2 11 -", "gives 1 1100"));
    assert!(calls("call union\ncall union\n").is_err());
}

#[test]
fn described_scripts_read_back() {
    let text = "10 02 40 01 { 11 12 u16:3 i32:-4 i16:1,2 zeros:12 13 i32:5 zeros:32 14 i32:6 i16:-7 zeros:30 \
                16 u16:65535 i32:5 zeros:32 17 u16:0 i32:6 i16:-7 zeros:30 99 } \
                41 00 01 02 44 03 00 45 01 46 00 i32:1,2 zeros:24 47 01 u32:9 zeros:64 00 FF";
    let script = bytes(text, &Names::new()).expect("good tokens");
    let case = format!("case a\n{}\n---\nend\n", describe::script(&script));
    assert_eq!(cases(&case).expect("good text")[0].input, script);
}

#[test]
fn a_numbered_rule_is_described_by_its_numbers() {
    let rule = [&[0x17, 7, 1, 0xFE, 0xFF, 0xFF, 0xFF, 3, 0][..], &[0; 30]].concat();
    assert_eq!(describe::set(&rule), "17 u16:263 i32:-2 i16:3,0,0,0,0,0,0,0 i16:0,0,0,0,0,0,0,0");
    assert_eq!(describe::set(&rule[..3]), "17 07 01");
}

#[test]
fn hex_reads_back() {
    for b in [vec![], vec![0], vec![1, 255]] {
        assert_eq!(unhex(&hex(&b)), Some(b));
    }
    assert_eq!(unhex("abc"), None);
}
