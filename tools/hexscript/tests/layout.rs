//! The tables of commands: lengths and places as document 01 has them, and the most that document 02 makes of them.

use hexscript::layout::*;

#[test]
fn lengths_of_commands() {
    let lengths = |commands: &[Command]| commands.iter().map(|c| (c.code, c.length())).collect::<Vec<_>>();
    assert_eq!(lengths(SET), [(0x11, 1), (0x12, 23), (0x13, 37), (0x14, 37), (0x16, 39), (0x17, 39)]);
    let (of_sets, of_points) = ([(0x41, 4), (0x42, 4), (0x43, 4), (0x44, 3), (0x45, 2)], [(0x46, 34), (0x47, 70)]);
    assert_eq!(lengths(SCRIPT), [&[(0x10, 2), (0x40, 2)], &of_sets[..], &of_points, &[(0x00, 1)]].concat());
}

#[test]
fn places_of_numbers() {
    let places = |code| {
        let command = find(SET, code).expect("a command");
        [DIVISOR, RULE_NUMBER, CONSTANT, OF_AXES, OF_DIVISIONS].map(|part| command.place(part))
    };
    assert_eq!(places(BASIC), [None; 5]);
    assert_eq!(places(DIVISION), [Some(1), None, Some(3), Some(7), None]);
    assert_eq!(places(EQUALITY), [None, None, Some(1), Some(5), Some(21)]);
    assert_eq!(places(INEQUALITY), places(EQUALITY));
    assert_eq!(places(NUMBERED_EQUALITY), [None, Some(1), Some(3), Some(7), Some(23)]);
    assert_eq!(places(NUMBERED_INEQUALITY), places(NUMBERED_EQUALITY));
}

#[test]
fn kinds_of_commands() {
    let codes = |is: fn(&Command) -> bool| SET.iter().filter(|c| is(c)).map(|c| c.code).collect::<Vec<_>>();
    assert_eq!(codes(Command::is_division), [0x12]);
    assert_eq!(codes(Command::is_rule), [0x13, 0x14, 0x16, 0x17]);
    assert_eq!(codes(Command::is_equality), [0x13, 0x16]);
}

#[test]
fn the_longest() {
    assert_eq!((LONGEST_DIVISION, LONGEST_RULE), (25, 39));
    assert_eq!((LONGEST_BASIC_SET, LONGEST_SET), (2_073, 66_336));
    for command in SET {
        let most = if command.is_rule() { LONGEST_RULE } else { LONGEST_DIVISION };
        assert!(command.length() <= most);
    }
}

#[test]
fn commands_are_cut_off_the_bytes() {
    let load = [0x40, 1, 2, 0, 0x11, 0x11, 0x45];
    let (command, own) = cut(SCRIPT, &load).ok().expect("a load");
    assert_eq!((command.word, own, set_of(own)), ("load", &load[..6], &[0x11, 0x11][..]));
    let none = |commands, bytes: &[u8]| cut(commands, bytes).err();
    assert_eq!((none(SCRIPT, &[]), none(SCRIPT, &[0x99])), (Some("no command"), Some("unknown command")));
    for (commands, bytes) in [(SCRIPT, &load[..5]), (SCRIPT, &load[..3]), (SET, &[0x14; 36])] {
        assert_eq!(none(commands, bytes), Some("command cut off"));
    }
}
