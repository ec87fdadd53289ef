//! Request 6, "The rule's own number": how it is read and written, 17 in its
//! order, and where rules keep it.

mod common;
use common::*;
use second::calls::hex;
use second::{encode, parse};

/// A rule command of any kind, its number given where it has one.
fn rule(command: u8, number: Option<u16>, constant: i32, places: &[i16]) -> Vec<u8> {
    let mut bytes = vec![command];
    bytes.extend(number.into_iter().flat_map(u16::to_le_bytes));
    bytes.extend(constant.to_le_bytes());
    bytes.extend((0..16).flat_map(|i| places.get(i).copied().unwrap_or(0).to_le_bytes()));
    bytes
}

fn opened(parts: &[Vec<u8>]) -> Vec<u8> {
    [vec![0x11], parts.concat()].concat()
}

/// A rule of one axis with this number.
fn ge(number: u16) -> Vec<u8> {
    rule(0x17, Some(number), 0, &[1])
}

fn gives(name: &str, n: usize, first: &str, second: &str, want: &str) {
    let (first, second, want) = (set_hex(n, first), set_hex(n, second), set(n, want));
    let line = format!("{name} {n} {} {first} {second}", want.len());
    assert_eq!(call(line), format!("gives {} {}", want.len(), hex(&want)));
}

fn complement_gives(n: usize, source: &str, want: &str) {
    let (source, want) = (set_hex(n, source), set(n, want));
    let line = format!("complement {n} {} {source}", want.len());
    assert_eq!(call(line), format!("gives {} {}", want.len(), hex(&want)));
}

#[test]
fn the_number_stands_directly_after_the_command_byte() {
    let numbered = opened(&[rule(0x17, Some(258), 5, &[1]), rule(0x16, Some(65_535), -3, &[-2])]);
    assert_eq!(numbered.len(), 1 + 39 + 39);
    assert_eq!(numbered[1..10], [0x17, 2, 1, 5, 0, 0, 0, 1, 0]);
    assert_eq!(set(1, "basic; rule 258 ge 5 1; rule 65535 eq -3 -2"), numbered);
    let plain = opened(&[rule(0x14, None, 5, &[1]), rule(0x13, None, -3, &[-2])]);
    assert_eq!(set(1, "basic; ge 5 1; rule 0 eq -3 -2"), plain);
}

#[test]
fn every_rule_is_written_as_it_was_read() {
    let mixed = "basic; div 3 1 1; ge 0 1 2; rule 1 ge 4 -1 0; rule 65535 eq 0 1 -3; eq 1 1 -3; basic; rule 256 ge 0 0";
    let bytes = set(1, mixed);
    let read = parse(1, &bytes).expect("a good set");
    let numbers: Vec<u16> = read.basics.iter().flat_map(|basic| &basic.rules).map(|rule| rule.number).collect();
    assert_eq!(numbers, [0, 1, 65_535, 0, 256]);
    assert_eq!(encode(&read), bytes);
    assert_eq!(bytes.len(), 2 + 23 + 2 * 37 + 3 * 39);
}

#[test]
fn a_16_or_17_with_number_0_is_17() {
    for command in [0x16, 0x17] {
        for (number, refusal) in [(0, "17"), (1, "0"), (256, "0"), (32_768, "0"), (65_535, "0")] {
            assert_eq!(check(1, &opened(&[rule(command, Some(number), 0, &[1])])), refusal);
        }
    }
}

#[test]
fn all_of_13_and_14_holds_of_16_and_17() {
    assert_eq!(check(1, &opened(&[rule(0x16, Some(1), i32::MIN, &[1])])), "7");
    assert_eq!(check(1, &opened(&[rule(0x16, Some(1), -i32::MAX, &[-32_767])])), "0");
    assert_eq!(check(1, &opened(&[rule(0x17, Some(1), i32::MIN, &[32_767])])), "0");
    assert_eq!(check(1, &opened(&[rule(0x17, Some(1), 0, &[-32_768])])), "7");
    assert_eq!(check(1, &opened(&[rule(0x17, Some(1), 0, &[1, 1])])), "8");
    assert_eq!(check(2, &opened(&[rule(0x17, Some(1), 0, &[1, 1])])), "0");
    let ninth = [0, 0, 0, 0, 0, 0, 0, 0, 1];
    assert_eq!(check(8, &opened(&[rule(0x16, Some(1), 0, &ninth)])), "8");
    let division = set(8, "basic; div 2 0 1 0 0 0 0 0 0 0")[1..].to_vec();
    assert_eq!(check(8, &opened(&[division.clone(), rule(0x16, Some(1), 0, &ninth)])), "0");
    assert_eq!(check(8, &opened(&[ge(1), division])), "5");
    // 48 rules of all four commands together.
    let four = [ge(7), rule(0x16, Some(8), 0, &[1]), rule(0x13, None, 0, &[1]), rule(0x14, None, 0, &[1])].concat();
    assert_eq!(check(1, &opened(&vec![four.clone(); 12])), "0");
    assert_eq!(check(1, &opened(&[four.repeat(12), ge(9)])), "9");
    assert_eq!(check(1, &opened(&[ge(9).repeat(48), rule(0x13, None, 0, &[1])])), "9");
}

/// "just after 9 in the order within a command": 2, 3, 4, 5, 9, 17, 6, 7, 8;
/// 2, 5 and 6 come to no `16` or `17`.
#[test]
fn seventeen_in_its_order() {
    for command in [0x16, 0x17] {
        let bad = rule(command, Some(0), i32::MIN, &[-32_768, 5]);
        // 3 before 4, 9 and 17.
        assert_eq!(check(1, &bad[..38]), "3");
        assert_eq!(check(1, &opened(&[bad[..3].to_vec()])), "3");
        assert_eq!(check(1, &opened(&[ge(1).repeat(48), bad[..38].to_vec()])), "3");
        // 4 and 9 before 17.
        assert_eq!(check(1, &bad), "4");
        assert_eq!(check(1, &opened(&[ge(1).repeat(48), bad.clone()])), "9");
        assert_eq!(check(1, &opened(&[ge(1).repeat(47), bad.clone()])), "17");
        // 17 before 7 and 8.
        assert_eq!(check(1, &opened(&[bad])), "17");
        assert_eq!(check(1, &opened(&[rule(command, Some(0), 0, &[-32_768])])), "17");
        assert_eq!(check(1, &opened(&[rule(command, Some(0), 0, &[0, 5])])), "17");
        assert_eq!(check(1, &opened(&[rule(command, Some(1), 0, &[-32_768, 5])])), "7");
    }
    assert_eq!(check(1, &opened(&[rule(0x16, Some(0), i32::MIN, &[])])), "17");
}

#[test]
fn commands_are_judged_as_they_come() {
    assert_eq!(check(1, &opened(&[ge(0), vec![0x99]])), "17");
    assert_eq!(check(1, &opened(&[vec![0x99], ge(0)])), "2");
    assert_eq!(check(1, &opened(&[rule(0x14, None, 0, &[0, 1]), ge(0)])), "8");
    assert_eq!(check(0, &opened(&[ge(0)])), "1");
    for name in ["union", "intersection", "difference"] {
        assert_eq!(short(name, 1, 5, &opened(&[ge(0)]), &[0x99]), "refused 17");
        assert_eq!(short(name, 1, 5, &[0x99], &opened(&[ge(0)])), "refused 2");
        assert_eq!(short(name, 1, 5, &[], &opened(&[ge(0)])), "refused 17");
    }
}

#[test]
fn every_call_that_reads_a_set_gives_17() {
    let bad = opened(&[ge(0)]);
    assert_eq!(member(1, &bad, &[9_999_999]), "refused 17");
    assert_eq!(fleet(1, &bad, &[9_999_999]), "refused 17");
    assert_eq!(search(1, &bad, 0, &[9], &[4]), "refused 17");
    assert_eq!(count(1, &bad, 0, &[9], &[4]), "refused 17");
    assert_eq!(counts(1, &bad, 0, 0, &[9], &[4]), "refused 17");
    assert_eq!(tested(1, &bad), "refused 17");
    assert_eq!(extreme("greatest", 1, &bad, 2, (0, &[1], &[])), "refused 17");
    assert_eq!(call(format!("complement 1 3 {}", hex(&bad))), "refused 17 000000");
    assert_eq!(call(format!("part 1 {} 1", hex(&bad))), "0 0");
    assert_eq!(call(format!("holder 1 11 {} {}", hex(&bad), eight(&[0]))), "first 0 0");
    let listed = Script::new(1).load(0, &set(1, "basic; rule 9 ge 0 1")).load(0, &bad).raw(&[0x45, 0]).end();
    assert_eq!(listed, "axes 1\ndone\nrefused 17\nset 0 has 1\nbasic 1\nge 0 1\nend\n");
}

#[test]
fn parts_have_the_length_of_their_commands() {
    let first = set(1, "basic; rule 3 ge -5 1; basic; ge 4 -1; rule 4 ge 0 1; basic");
    let part = |k: usize| call(format!("part 1 {} {k}", hex(&first)));
    assert_eq!([1, 2, 3, 4].map(part), ["0 40", "40 77", "117 1", "0 0"]);
    assert_eq!(call(format!("holder 1 {} - {}", hex(&first), eight(&[2]))), "first 40 77");
}

#[test]
fn opposites_keep_their_number() {
    complement_gives(1, "basic; rule 7 ge 0 1; ge 2186 -1", "basic; rule 7 ge -1 -1; basic; rule 7 ge 0 1; ge -2187 1");
    // Both of an equality, the rule itself where it joins.
    complement_gives(
        1,
        "basic; rule 9 eq -4 1; rule 65535 ge -9 1",
        "basic; rule 9 ge -5 1; basic; rule 9 ge 3 -1; basic; rule 9 eq -4 1; rule 65535 ge 8 -1",
    );
}

#[test]
fn tightened_rules_keep_their_number() {
    gives("intersection", 1, "basic; rule 2 ge 3 2", "basic; rule 3 eq -18 6", "basic; rule 2 ge 1 1; rule 3 eq -3 1");
    // A tightened opposite, and the tightened rule that joins.
    gives(
        "difference",
        1,
        "basic; rule 1 ge 3 2",
        "basic; rule 5 ge -9 2; rule 6 ge 31 -3",
        "basic; rule 1 ge 1 1; rule 5 ge 4 -1; basic; rule 1 ge 1 1; rule 5 ge -5 1; rule 6 ge -11 1",
    );
    // The opposites of a void equality.
    complement_gives(1, "basic; rule 8 eq -8 6", "basic; rule 8 ge -2 1; basic; rule 8 ge 1 -1");
}

#[test]
fn a_moved_rule_keeps_its_number() {
    gives(
        "intersection",
        1,
        "basic; div 2 0 1; rule 11 ge 0 1 1",
        "basic; div 3 1 1; div 2 0 1; rule 12 ge 9 0 4 5; ge 8 0 1 0",
        "basic; div 2 0 1; div 3 1 1; rule 11 ge 0 1 1 0; rule 12 ge 9 0 5 4; ge 8 0 0 1",
    );
    gives(
        "difference",
        1,
        "basic; div 2 0 1; ge 0 1 0",
        "basic; div 3 1 1; rule 13 ge 9 0 -1",
        "basic; div 2 0 1; div 3 1 1; ge 0 1 0 0; rule 13 ge -10 0 0 1",
    );
}

#[test]
fn union_and_a_basic_set_without_cutters_are_written_as_given() {
    let (first, second) = ("basic; rule 1 ge 3 2; rule 2 eq -1 2; ge 4 6", "basic; rule 3 ge 4 6");
    gives("union", 1, first, second, &format!("{first}; {second}"));
    gives("difference", 1, first, "", first);
    complement_gives(1, "", "basic");
}

/// The bytes of a set without the numbers of its rules.
fn plain(n: usize, bytes: &[u8]) -> Vec<u8> {
    let mut set = parse(n as u8, bytes).expect("a good set");
    set.basics.iter_mut().flat_map(|basic| &mut basic.rules).for_each(|rule| rule.number = 0);
    encode(&set)
}

/// "Numbers alter neither membership nor what is dropped."
#[test]
fn numbers_alter_no_answer() {
    let a = set(1, "basic; div 3 1 1; rule 5 ge 0 1 0; rule 5 ge 20 -1 0; basic; rule 65535 eq -30 1; rule 4 ge 9 0");
    let b = set(1, "basic; rule 5 ge -6 1; ge 7 -1; basic; div 3 1 1; rule 1 eq -2 0 1; basic; rule 7 eq -1 2");
    let (plain_a, plain_b) = (plain(1, &a), plain(1, &b));
    for x in -3..=33 {
        assert_eq!(member(1, &a, &[x]), member(1, &plain_a, &[x]));
    }
    assert_eq!(search(1, &b, 99, &[-9], &[9]), search(1, &plain_b, 99, &[-9], &[9]));
    assert_eq!(counts(1, &a, 99, 1, &[-9], &[40]), counts(1, &plain_a, 99, 1, &[-9], &[40]));
    assert_eq!(tested(1, &b), tested(1, &plain_b));
    let asked = (3, &[1][..], &[-2][..]);
    assert_eq!(extreme("least", 1, &a, 1, asked), extreme("least", 1, &plain_a, 1, asked));
    let result = |name: &str, a: &[u8], b: &[u8]| {
        let answer = call(format!("{name} 1 5000 {} {}", hex(a), hex(b)));
        let words: Vec<&str> = answer.split(' ').collect();
        assert_eq!(words[0], "gives");
        second::calls::unhex(&words[2][..2 * words[1].parse::<usize>().expect("a length")]).expect("bytes")
    };
    for name in ["union", "intersection", "difference"] {
        let numbered = result(name, &a, &b);
        assert_eq!(plain(1, &numbered), result(name, &plain_a, &plain_b));
        assert_ne!(numbered, plain(1, &numbered), "{name}");
    }
}

#[test]
fn a_state_says_the_same_of_numbered_rules() {
    let with = |number: &str| {
        let rules = ["ge 0 1 0", "ge 9 -1 0", "eq -2 0 1", "ge -7 1 0"].map(|rule| format!("add {number}{rule}"));
        format!("start 1 / div 3 0 1; {}; mark 3; add {number}ge -9 1 0; back 3", rules.join("; "))
    };
    assert_eq!(walk(&with("")), "point ; point ; point ; point ; point ; point ; empty ; point");
    assert_eq!(walk(&with("rule 65535 ")), walk(&with("")));
    // A call takes numbers and no commands: there is no 17, and such a rule cannot be written.
    assert_eq!(call(format!("states start 1 - ; add {}", hex(&ge(0)))), "bad line");
    assert_eq!(call(format!("states start 1 - ; add {}", hex(&ge(1)[..38]))), "bad line");
}

/// "It is part of no comparison. 11 may come sooner, 10 may not."
#[test]
fn eleven_may_come_sooner_ten_may_not() {
    let (plain, numbered) = (set(1, "basic; ge 0 1; ge 2186 -1"), set(1, "basic; rule 1 ge 0 1; rule 2 ge 2186 -1"));
    assert_eq!(short("union", 1, 75, &plain, &[]), "gives 75");
    assert_eq!(short("union", 1, 75, &numbered, &[]), "refused 11");
    assert_eq!(short("union", 1, 79, &numbered, &[]), "gives 79");
    let full = |count: usize, rule: &str| set(1, &format!("basic; {}", times(count, rule)));
    for rule in ["ge 0 1", "rule 65535 ge 0 1"] {
        assert_eq!(short("intersection", 1, 0, &full(25, rule), &full(24, rule)), "refused 10");
        assert_eq!(short("intersection", 1, 0, &full(24, rule), &full(24, rule)), "refused 11");
    }
}

/// 205 numbered rules in 5 basic sets are 8,000 bytes: 5 + 205 · 39. The
/// largest set has 32 · (1 + 8 · 23 + 48 · 39) = 65,824.
#[test]
fn tables_filled_by_numbered_rules() {
    let full = set(1, &times(5, &format!("basic; {}", times(41, "rule 40000 ge 0 1"))));
    assert_eq!(full.len(), 8000);
    let over = [full.clone(), vec![0x11]].concat();
    let script = Script::new(1).load(0, &full).load(1, &[0x11]).raw(&[0x41, 2, 0, 1]).load(3, &over);
    assert_eq!(script.end(), "axes 1\ndone\ndone\nrefused 11\nrefused 11\nend\n");
    let rules = vec!["rule 40000 ge 0 1 0 0 0 0 0 0 0 0"; 48].join(";");
    let basic = format!("basic; {}; {rules}", times(8, "div 2 0 1"));
    let largest = set(1, &times(32, &basic));
    assert_eq!(largest.len(), 65_824);
    assert_eq!(short("union", 1, 65_823, &largest, &[]), "refused 11");
    assert_eq!(short("union", 1, 65_824, &largest, &[]), "gives 65824");
}
