//! Points, boxes and limits: mostly near the sets, now and then out of range (12, 13).

use crate::rng::Rng;

const FAR: [i32; 6] = [1_048_576, -1_048_576, 1_048_577, -1_048_577, i32::MAX, i32::MIN];

/// Puts one number where it is refused, or at the very end of its range.
pub(crate) fn spoil(rng: &mut Rng, n: usize, values: &mut [i32; 8]) {
    if rng.chance(50) {
        values[rng.below(n)] = rng.pick(&FAR);
    } else {
        values[rng.below(8)] = rng.pick(&[1, -1, 7]);
    }
}

pub fn any_point(rng: &mut Rng, n: usize) -> [i32; 8] {
    let size = if rng.chance(90) { 8 } else { 1_048_576 };
    let mut out = [0; 8];
    for x in out.iter_mut().take(n) {
        *x = rng.range(-size, size) as i32;
    }
    if rng.chance(6) {
        spoil(rng, n, &mut out);
    }
    out
}

/// Puts a low over its high: on every side that has two values or more, or on one axis only that is not the first.
pub(crate) fn shut(rng: &mut Rng, n: usize, low: &mut [i32; 8], high: &mut [i32; 8]) {
    if n == 1 || rng.chance(30) {
        std::mem::swap(low, high);
    } else {
        let axis = 1 + rng.below(n - 1);
        low[axis] = high[axis] + rng.range(1, 3) as i32;
    }
}

/// A box of at most a few thousand prefixes, so that walking it all takes no time.
pub fn any_box(rng: &mut Rng, n: usize) -> ([i32; 8], [i32; 8]) {
    let widest = match n {
        1 => 40,
        2 => 20,
        3 => 9,
        4 => 5,
        _ => 2,
    };
    let (mut low, mut high) = ([0; 8], [0; 8]);
    for axis in 0..n {
        let width = if n > 5 { rng.below(2) as i64 } else { rng.range(0, widest) };
        low[axis] = rng.range(-6 - widest / 2, 4) as i32;
        high[axis] = low[axis] + width as i32;
    }
    match rng.below(40) {
        3 | 4 => {
            let shift = rng.pick(&[-1_048_500, 1_048_500]);
            low[..n].iter_mut().chain(&mut high[..n]).for_each(|x| *x += shift);
        }
        0 => spoil(rng, n, &mut low),
        1 => spoil(rng, n, &mut high),
        2 | 5 | 6 => shut(rng, n, &mut low, &mut high),
        _ => {}
    }
    (low, high)
}

/// The widest box there is: numbers grow large in it. Only for small limits.
pub fn widest_box(n: usize) -> ([i32; 8], [i32; 8]) {
    let (mut low, mut high) = ([0; 8], [0; 8]);
    low[..n].fill(-1_048_576);
    high[..n].fill(1_048_576);
    (low, high)
}

pub fn any_limit(rng: &mut Rng) -> u32 {
    match rng.below(20) {
        0 => rng.pick(&[0, 1_000_001, u32::MAX]),
        1 => 1_000_000,
        2..=9 => rng.range(1, 20) as u32,
        _ => rng.range(1, 20_000) as u32,
    }
}
