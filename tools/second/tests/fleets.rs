//! Request 2, "A whole fleet at one look": a bit for each point, and how many are 1.

mod common;
use common::*;

const RULE_LESS: [u8; 1] = [0x11];
const FAR: i32 = 1_048_576;

#[test]
fn point_1_is_in_the_lowest_bit() {
    assert_eq!(fleet(1, &a(), &[0, 2187, 2186]), "5 2");
    assert_eq!(fleet(1, &a(), &[0]), "1 1");
    assert_eq!(fleet(1, &a(), &[-1]), "0 0");
    assert_eq!(fleet(1, &a(), &[-1, 0]), "2 1");
}

#[test]
fn sixty_four_points_and_no_more() {
    assert_eq!(fleet(1, &RULE_LESS, &[5; 63]), format!("{} 63", u64::MAX >> 1));
    assert_eq!(fleet(1, &RULE_LESS, &[5; 64]), format!("{} 64", u64::MAX));
    assert_eq!(fleet(1, &RULE_LESS, &[5; 65]), "refused 16");
    assert_eq!(fleet(8, &RULE_LESS, &[5; 512]), format!("{} 64", u64::MAX));
    assert_eq!(fleet(8, &RULE_LESS, &[5; 520]), "refused 16");
    let mut last = [-1; 64];
    last[63] = 0;
    assert_eq!(fleet(1, &a(), &last), format!("{} 1", 1u64 << 63));
}

#[test]
fn no_points_and_parts_of_a_point() {
    assert_eq!(fleet(3, &RULE_LESS, &[]), "0 0");
    assert_eq!(fleet(3, &[], &[]), "0 0");
    assert_eq!(fleet(3, &[], &[1, 2, 3]), "0 0");
    for count in [1, 2, 4, 5, 191, 193] {
        assert_eq!(fleet(3, &RULE_LESS, &vec![0; count]), "refused 16");
    }
}

#[test]
fn one_bad_coordinate_refuses_the_list() {
    for place in 0..6 {
        for bad in [FAR + 1, -FAR - 1, i32::MAX, i32::MIN] {
            let mut list = [FAR, -FAR, 0, 1, FAR, -FAR];
            assert_eq!(fleet(2, &RULE_LESS, &list), "7 3");
            list[place] = bad;
            assert_eq!(fleet(2, &RULE_LESS, &list), "refused 12");
        }
    }
}

/// 1, the set's numbers, 16, 12.
#[test]
fn the_order_of_the_refusals() {
    let bad = [FAR + 1; 65];
    assert_eq!(fleet(0, &[0x99], &bad), "refused 1");
    assert_eq!(fleet(9, &RULE_LESS, &[]), "refused 1");
    assert_eq!(fleet(1, &[0x99], &bad), "refused 2");
    assert_eq!(fleet(1, &[0x99], &[]), "refused 2");
    assert_eq!(fleet(1, &RULE_LESS, &bad), "refused 16");
    assert_eq!(fleet(2, &RULE_LESS, &bad[..3]), "refused 16");
    assert_eq!(fleet(2, &RULE_LESS, &bad[..2]), "refused 12");
}

/// "Each bit equals what member says of that point", divisions and several basic sets included.
#[test]
fn each_bit_is_member() {
    let set = set(2, "basic; div 7 0 1 1; eq 0 1 0 -2; basic; ge 3 -1 0; ge 3 1 0; eq 0 0 1");
    let points: Vec<[i32; 2]> = (-8..8).flat_map(|x| (-2..2).map(move |y| [x, y])).collect();
    let expected: Vec<bool> = points.iter().map(|x| member(2, &set, x) == "in").collect();
    let mask: u64 = expected.iter().enumerate().map(|(i, &inside)| u64::from(inside) << i).sum();
    let count = expected.iter().filter(|&&inside| inside).count();
    assert!(points.len() == 64 && 0 < count && count < 64);
    assert_eq!(fleet(2, &set, points.as_flattened()), format!("{mask} {count}"));
}
