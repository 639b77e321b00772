//! Excess: of each corner of the new shape the nearest place of the old one, found in one walk round it.
use super::clearance::{distance, place};
use super::corner::Corner;
use super::inside::is_inside;
use super::judge::{Shape, admitted_pair};
use crate::reply::Numbers;

/// How far the new shape reaches beyond the old one.
#[inline(never)]
pub fn excess(new: &[i32], f: u32, old: &[i32], g: u32) -> Numbers {
    match admitted_pair(new, f, old, g) {
        Ok((new, old)) if is_inside(new.corners, old.corners) => Numbers::one(0, f),
        Ok((new, old)) => furthest(new.corners, old, f.into()),
        Err(refusal) => refusal,
    }
}

/// The first of the furthest corners. Those that are not apart from the old shape have no place.
fn furthest(new: &[Corner], old: Shape, floor: u64) -> Numbers {
    let mut best = Numbers::all([0, floor]);
    let mut most = (0, 1);
    for (i, corner) in new.iter().enumerate() {
        let alone = Shape {
            corners: std::slice::from_ref(corner),
            top: 0,
        };
        let Some(place) = place(alone, old) else {
            continue;
        };
        let mut found = place.told(alone.corners, old.corners, floor);
        let far = distance(found);
        if most.0 * far.1 < far.0 * most.1 {
            found.values[1] = i as u64;
            (best, most) = (found, far);
        }
    }
    rounded_up(best, most)
}

/// One more than the distance rounded down, unless that is exact.
fn rounded_up(mut found: Numbers, (top, bottom): (u128, u128)) -> Numbers {
    let at = if found.values[0] == 1 { 4 } else { 5 };
    let low = u128::from(found.values[at]);
    found.values[at] += u64::from(low * low * bottom < top);
    found
}
