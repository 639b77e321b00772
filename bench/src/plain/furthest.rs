//! Furthest corner: one pass over the corners, then the two beside the first that is furthest.
use super::corner::{Corner, value};
use super::direction;
use super::judge::admitted;
use crate::reply::Numbers;

/// The first and the last of the furthest corners, counterclockwise, and their value.
#[inline(never)]
pub fn furthest(list: &[i32], floor: u32, u: i32, v: i32) -> Numbers {
    match admitted(list, floor) {
        Ok(shape) => match direction::refused(u, v) {
            Some(number) => Numbers::refused(number),
            None => face(shape.corners, [u, v], floor),
        },
        Err(refusal) => refusal,
    }
}

/// The corners with the greatest value are one or two neighbours. A segment across the direction is
/// 0 and 1.
#[inline(always)]
fn face(corners: &[Corner], d: Corner, floor: u32) -> Numbers {
    let value = |c: Corner| value(d, c);
    let (mut here, mut greatest) = (0, value(corners[0]));
    for (i, &corner) in corners.iter().enumerate().skip(1) {
        let next = value(corner);
        if greatest < next {
            (here, greatest) = (i, next);
        }
    }
    let end = corners.len() - 1;
    let (first, last) = if here == 0 && end >= 2 && value(corners[end]) == greatest {
        (end, here)
    } else if here < end && value(corners[here + 1]) == greatest {
        (here, here + 1)
    } else {
        (here, here)
    };
    Numbers::all([first as u64, last as u64, greatest as u64, floor as u64])
}
