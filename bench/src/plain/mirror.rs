//! The mirror image, straight into the output.
use super::corner::{Corner, opposite, room_of};
use super::judge::{Shape, admitted};
use crate::reply::Numbers;

/// The shape of all (-x, -y).
#[inline(never)]
pub fn mirror(list: &[i32], floor: u32, out: &mut [i32]) -> Numbers {
    match admitted(list, floor) {
        Ok(shape) => Numbers::written(turned(shape, room_of(out)), floor),
        Err(refusal) => refusal,
    }
}

/// Writes the opposites of all corners, begun at the top, which becomes the lowest; or refuses 8.
#[inline(always)]
fn turned(shape: Shape, out: &mut [Corner]) -> Result<usize, u64> {
    let count = shape.corners.len();
    let (below, above) = shape.corners.split_at(shape.top);
    let (front, back) = out.get_mut(..count).ok_or(8_u64)?.split_at_mut(above.len());
    for (to, from) in [(front, above), (back, below)] {
        for (to, from) in to.iter_mut().zip(from) {
            *to = opposite(*from);
        }
    }
    Ok(count)
}
