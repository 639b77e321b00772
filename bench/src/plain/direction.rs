//! Directions that a caller gives: refusals 11 and 12, and the divisor of the parts.

/// 11 if the direction is (0, 0) or has a part out of range, 12 if its parts have a common divisor.
#[inline(always)]
pub fn refused(u: i32, v: i32) -> Option<u64> {
    if bad_direction(u, v) {
        return Some(11);
    }
    (divisor(u, v) > 1).then_some(12)
}

/// Whether the direction is (0, 0), or has a part out of range.
fn bad_direction(u: i32, v: i32) -> bool {
    let outside = |part: i32| part.unsigned_abs() > 2_000_000;
    (u == 0 && v == 0) || outside(u) || outside(v)
}

/// The greatest common divisor of the parts, by halving: the factors of two that both have, times the
/// divisor of the odd parts.
pub fn divisor(u: i32, v: i32) -> u32 {
    let (a, b) = (u.unsigned_abs(), v.unsigned_abs());
    if a == 0 || b == 0 {
        return a | b;
    }
    let (mut x, mut y) = (a >> a.trailing_zeros(), b >> b.trailing_zeros());
    while x != y {
        let difference = x.abs_diff(y);
        (x, y) = (x.min(y), difference >> difference.trailing_zeros());
    }
    x << (a | b).trailing_zeros()
}
