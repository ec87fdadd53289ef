//! Exact arithmetic in 128 bits, every operation checked.
//!
//! No operation here can overflow within the documented ranges, so none of
//! the `expect`s can be reached:
//! * A numerator of a division is at most 8 · 32,767 · 2^20 + 10^9 < 2^39 in
//!   size at any point or box of "Asking"; a division's value is no larger; a
//!   rule is at most 2^31 + 8 · 2^15 · 2^20 + 8 · 2^15 · 2^39 < 2^58. (Even
//!   coordinates of any 32 bits would keep a rule below 2^70.)
//! * In the test for fractions step 4 lets only numbers of at most 2^31 − 1,
//!   or 2^63 − 1 after request 9's carry, into an exchange, which makes sums of
//!   two products: below 2^63, or 2^127. Numbers that are larger are only looked
//!   at (sign, zero or not, beyond the bound) or, in request 11's value, divided.
//! * Request 8 puts rows into a new rule's row under the same bounds, by the same
//!   sums of two products.
//! * Request 11 compares the moves at which rows stop a column by products of two
//!   such numbers, once step 4 has let them pass.

#[inline]
pub fn add(a: i128, b: i128) -> i128 {
    a.checked_add(b).expect("sum within 128 bits")
}

/// Two factors of 64 bits have a product of 128 bits; only others need the
/// (slower) check.
#[inline]
pub fn mul(a: i128, b: i128) -> i128 {
    match (i64::try_from(a), i64::try_from(b)) {
        (Ok(a), Ok(b)) => i128::from(a) * i128::from(b),
        _ => a.checked_mul(b).expect("product within 128 bits"),
    }
}

/// Division rounded towards minus infinity, for a positive divisor.
pub fn floor_div(numerator: i128, d: i128) -> i128 {
    let quotient = numerator / d;
    if numerator % d < 0 {
        quotient - 1
    } else {
        quotient
    }
}

/// Greatest common divisor; gcd(0, a) = a.
pub fn gcd(a: u128, b: u128) -> u128 {
    match (u64::try_from(a), u64::try_from(b)) {
        (Ok(a), Ok(b)) => u128::from(gcd64(a, b)),
        _ if b == 0 => a,
        _ => gcd(b, a % b),
    }
}

fn gcd64(mut a: u64, mut b: u64) -> u64 {
    while b != 0 {
        (a, b) = (b, a % b);
    }
    a
}
