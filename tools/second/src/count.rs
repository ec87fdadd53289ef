//! "How many ways" (request 12): the points of a box that are in a set, all of them and by one axis.

use crate::ask::{check_corners, check_limit, prefixes, Ending, Sides};
use crate::model::Set;
use crate::refusal;

/// More values of the chosen axis are refused.
pub const MOST_VALUES: u64 = 64;

#[derive(Clone, Debug, PartialEq, Eq)]
pub enum Count {
    /// All points; of a chosen axis those with each value, from its low upward; the prefixes tested.
    Whole(u32, Vec<u32>, u32),
    /// "Spent returns no counts": the prefixes tested.
    Spent(u32),
}

/// How many points of the box are in the set, or 12 or 13.
pub fn count(set: &Set, sides: &Sides, limit: u32) -> Result<Count, u8> {
    check_corners(set.n, sides)?;
    check_limit(limit)?;
    Ok(counted(set, sides, None, limit))
}

/// The same with the number for each value of an axis, from 1, or 12, 19 or 13.
pub fn counts(set: &Set, sides: &Sides, axis: u64, limit: u32) -> Result<Count, u8> {
    check_corners(set.n, sides)?;
    let axis = check_axis(set.n, sides, axis)?;
    check_limit(limit)?;
    Ok(counted(set, sides, Some(axis), limit))
}

/// Refusal 19: "a chosen axis that isn't 1 to n or whose side has over 64 values". The axis comes back from 0.
pub fn check_axis(n: usize, sides: &Sides, axis: u64) -> Result<usize, u8> {
    let from_zero = axis.checked_sub(1).and_then(|axis| usize::try_from(axis).ok());
    match from_zero {
        Some(axis) if axis < n && sides.values(axis) <= MOST_VALUES => Ok(axis),
        _ => Err(refusal::CHOSEN_AXIS),
    }
}

/// "going on past each member to the end": every passing prefix of length n is a member, and is met once.
fn counted(set: &Set, sides: &Sides, axis: Option<usize>, limit: u32) -> Count {
    let values = axis.map_or(0, |axis| sides.values(axis));
    let mut each = vec![0; values as usize];
    let mut whole = 0;
    if sides.is_shut() {
        return Count::Whole(whole, each, 0);
    }
    let (ending, tested) = prefixes(set, sides, limit, &mut |prefix, passes| {
        if passes && prefix.len() == set.n {
            whole += 1;
            if let Some(axis) = axis {
                each[(prefix[axis] - sides.low[axis]) as usize] += 1;
            }
        }
        false
    });
    match ending {
        Ending::Spent => Count::Spent(tested),
        _ => Count::Whole(whole, each, tested),
    }
}
