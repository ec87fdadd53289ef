//! "A whole fleet at one look" (request 2): which points of a list are in a set.

use crate::ask::member;
use crate::model::{Point, Set, MAX_AXES};
use crate::refusal;

/// More points are refused.
pub const MOST_POINTS: usize = 64;

#[derive(Clone, Copy, Debug, PartialEq, Eq)]
pub struct Fleet {
    /// Point 1 in the lowest bit.
    pub mask: u64,
    /// How many may run.
    pub count: u32,
}

/// The points of a list, "n to a point", or 16 where it "isn't a whole number of points" or has too many.
pub fn points(n: usize, coordinates: &[i32]) -> Result<Vec<Point>, u8> {
    let points = coordinates.chunks_exact(n);
    if !points.remainder().is_empty() || points.len() > MOST_POINTS {
        return Err(refusal::FLEET_LIST);
    }
    Ok(points.map(with_absent_axes).collect())
}

fn with_absent_axes(coordinates: &[i32]) -> Point {
    let mut point = [0; MAX_AXES];
    point[..coordinates.len()].copy_from_slice(coordinates);
    point
}

/// "Each bit equals what member says of that point", or 16 or, for any of them, 12.
pub fn fleet(set: &Set, coordinates: &[i32]) -> Result<Fleet, u8> {
    let mut mask = 0;
    for (place, point) in points(set.n, coordinates)?.iter().enumerate() {
        mask |= u64::from(member(set, point)?) << place;
    }
    Ok(Fleet { mask, count: mask.count_ones() })
}
