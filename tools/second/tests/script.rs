//! "The script program": the example byte for byte, every command, and the
//! refusals of the script itself.

mod common;
use common::*;

#[test]
fn the_example_byte_for_byte() {
    let script = Script::new(1).raw(&[0x40, 0x00, 0x4B, 0x00]).raw(&a());
    let output = script.raw(&[0x44, 1, 0, 0x45, 1]).end();
    let want = "axes 1\ndone\ndone\nset 1 has 2\nbasic 1\nge -1 -1\nbasic 2\n\
                ge 0 1\nge -2187 1\nend\n";
    assert_eq!(output, want);
}

#[test]
fn every_command_prints_its_line() {
    let output = Script::new(2)
        .load(0, &set(2, "basic; ge 0 1 0; ge 3 -1 0"))
        .load(1, &set(2, "basic; div 10 -7 0 1; eq -1 0 0 1"))
        .raw(&[0x41, 2, 0, 1, 0x42, 3, 0, 1, 0x43, 0, 0, 1, 0x44, 1, 1])
        .raw(&[0x45, 0, 0x45, 1, 0x45, 2, 0x45, 3])
        .member(3, &[3, 26])
        .member(3, &[3, 27])
        .search(3, 1000, &[-5, 0], &[5, 50])
        .search(3, 9, &[-5, 0], &[5, 50])
        .search(3, 1000, &[-5, 0], &[5, 16])
        .end();
    let want = "axes 2\ndone\ndone\ndone\ndone\ndone\ndone\n\
        set 0 has 2\n\
        basic 1\ndiv 10 -7 0 1\nge 0 1 0 0\nge 3 -1 0 0\nge -2 0 0 1\n\
        basic 2\ndiv 10 -7 0 1\nge 0 1 0 0\nge 3 -1 0 0\nge 0 0 0 -1\n\
        set 1 has 2\n\
        basic 1\ndiv 10 -7 0 1\nge -2 0 0 1\n\
        basic 2\ndiv 10 -7 0 1\nge 0 0 0 -1\n\
        set 2 has 2\n\
        basic 1\nge 0 1 0\nge 3 -1 0\n\
        basic 2\ndiv 10 -7 0 1\neq -1 0 0 1\n\
        set 3 has 1\n\
        basic 1\ndiv 10 -7 0 1\nge 0 1 0 0\nge 3 -1 0 0\neq -1 0 0 1\n\
        in\nout\nat 0 17 24\nspent 9\nnone 11\nend\n";
    assert_eq!(output, want);
}

#[test]
fn opening_refusals() {
    for (input, number) in [
        (&[][..], 3),
        (&[0x99], 2),
        (&[0x11], 2),
        (&[0x00], 15),
        (&[0x45, 0x00], 15),
        (&[0x40], 15),
        (&[0x10], 3),
        (&[0x10, 0, 0], 1),
        (&[0x10, 9, 0], 1),
    ] {
        assert_eq!(Script(input.to_vec()).run(), format!("refused {number}\n"));
    }
}

#[test]
fn refusals_that_end_the_script() {
    for (input, number) in [
        (&[][..], 3),
        (&[0x99], 2),
        (&[0x48, 0], 2),
        (&[0x3F, 0], 2),
        (&[0x10, 1, 0], 15),
        (&[0x10], 15),
        (&[0x40], 3),
        (&[0x40, 4], 3),
        (&[0x40, 0, 1], 3),
        (&[0x40, 0, 1, 0], 3),
        (&[0x41, 9, 9], 3),
        (&[0x42, 0, 0], 3),
        (&[0x43, 0], 3),
        (&[0x44, 7], 3),
        (&[0x45], 3),
        (&[0x46, 0, 0, 0], 3),
        (&[0x47, 4, 0, 0], 3),
    ] {
        let output = Script::new(1).raw(input).run();
        assert_eq!(output, format!("axes 1\nrefused {number}\n"), "{input:x?}");
    }
}

#[test]
fn set_numbers_over_3_go_on_after_the_whole_command() {
    let output = Script::new(1)
        .load(4, &[0x99, 0x99])
        .raw(&[0x41, 4, 0, 0, 0x41, 0, 4, 0, 0x41, 0, 0, 4])
        .raw(&[0x42, 0, 255, 0, 0x43, 0, 0, 4, 0x44, 4, 0, 0x44, 0, 4, 0x45, 4])
        .member(4, &[2_000_000])
        .search(4, 0, &[1], &[0])
        .end();
    assert_eq!(output, format!("axes 1\n{}end\n", "refused 14\n".repeat(11)));
}

#[test]
fn a_refusal_leaves_the_target_and_bytes_after_00_are_ignored() {
    let output = Script::new(1)
        .load(0, &a())
        .load(0, &[0x99])
        .raw(&[0x45, 0, 0x00, 0x99, 0x10])
        .run();
    let want = "axes 1\ndone\nrefused 2\nset 0 has 1\nbasic 1\nge 0 1\nge 2186 -1\nend\n";
    assert_eq!(output, want);
}

#[test]
fn a_target_may_be_a_source() {
    let output = Script::new(1)
        .load(0, &a())
        .raw(&[0x41, 0, 0, 0, 0x45, 0, 0x43, 0, 0, 0, 0x45, 0])
        .raw(&[0x44, 0, 0, 0x45, 0])
        .end();
    let twice = "basic 1\nge 0 1\nge 2186 -1\nbasic 2\nge 0 1\nge 2186 -1\n";
    let want = format!(
        "axes 1\ndone\ndone\nset 0 has 2\n{twice}done\nset 0 has 0\ndone\n\
         set 0 has 1\nbasic 1\nend\n"
    );
    assert_eq!(output, want);
}

#[test]
fn questions_refused_in_a_script() {
    let output = Script::new(1)
        .member(0, &[1_048_577])
        .member(0, &[-1_048_577])
        .member(0, &[1_048_576])
        .member(0, &[0, 1])
        .search(0, 0, &[5, 1], &[4])
        .search(0, 0, &[5], &[4])
        .search(0, 1, &[5], &[4])
        .search(0, 0, &[4], &[5])
        .search(0, 1_000_001, &[4], &[5])
        .search(0, 1_000_000, &[4], &[5])
        .end();
    let want = "axes 1\nrefused 12\nrefused 12\nout\nrefused 12\nrefused 12\nrefused 13\nnone 0\n\
                refused 13\nrefused 13\nnone 2\nend\n";
    assert_eq!(output, want);
}

#[test]
fn tables_of_8000_bytes() {
    // 27 basic sets of 8 rules: 27 · (1 + 8 · 37) = 8,019 bytes.
    let eight_rules = format!("basic; {}", times(8, "ge 0 1"));
    let many = set(1, &times(27, &eight_rules));
    assert_eq!(many.len(), 8019);
    let fewer = set(1, &times(26, &eight_rules));
    let output = Script::new(1)
        .load(0, &many)
        .load(1, &fewer)
        .load(2, &set(1, &eight_rules))
        .raw(&[0x41, 3, 1, 2, 0x45, 0, 0x45, 3])
        .end();
    let want = "axes 1\nrefused 11\ndone\ndone\nrefused 11\nset 0 has 0\nset 3 has 0\nend\n";
    assert_eq!(output, want);
    // 216 rules in 8 basic sets are 8,000 bytes: 8 + 216 · 37.
    let full = set(1, &times(8, &format!("basic; {}", times(27, "ge 0 1"))));
    assert_eq!(full.len(), 8000);
    assert_eq!(Script::new(1).load(0, &full).end(), "axes 1\ndone\nend\n");
}
