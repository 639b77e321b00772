//! Area: the cross products of neighbouring corners, once round.
use super::corner::Corner;
use super::judge::admitted;
use crate::reply::Numbers;

/// Twice the area.
#[inline(never)]
pub fn area(list: &[i32], floor: u32) -> Numbers {
    match admitted(list, floor) {
        Ok(shape) => Numbers::all([twice(shape.corners), floor.into()]),
        Err(refusal) => refusal,
    }
}

/// A point's own product is 0, and a segment's two cancel. No shape has less than no area.
#[inline(always)]
fn twice(corners: &[Corner]) -> u64 {
    let mut last = corners[corners.len() - 1];
    let mut sum = 0;
    for &next in corners {
        sum += product(last, next);
        last = next;
    }
    sum as u64
}

/// At most 2·10^12 in size.
#[inline(always)]
fn product(p: Corner, q: Corner) -> i64 {
    i64::from(p[0]) * i64::from(q[1]) - i64::from(p[1]) * i64::from(q[0])
}
