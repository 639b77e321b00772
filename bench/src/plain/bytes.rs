//! The calls of a host (document 02, W14): lists as bytes, the reply as one number. Only a merge decodes its lists.
use super::corner::{Bytes, Corner, Stored, corners_in, room_in};
use super::deliver::checked_near;
use super::judge::{MOST, Shape, judged, judged_pair, on_one_floor};
use super::merge::{Hull, merged};
use super::relation::related;
use super::sum::add;
use crate::reply::Numbers;
use std::mem::MaybeUninit;

/// Corners of a list. It is not cleared first: only what was decoded is read.
type Decoded = [MaybeUninit<Corner>; MOST];

const EMPTY: Decoded = [MaybeUninit::uninit(); MOST];

/// Whether the bytes hold a shape, and how many corners it has.
#[inline(never)]
pub fn judge_bytes(list: &[u8], floor: u32) -> u64 {
    let judged = judged(corners_in(list), 1).and_then(|shape| {
        on_one_floor(floor, floor)?;
        Ok(Numbers::one(shape.corners.len() as u64, floor))
    });
    packed(judged)
}

/// The shape of all corner-plus-corner points, as bytes.
#[inline(never)]
pub fn sum_bytes(a: &[u8], f: u32, b: &[u8], g: u32, out: &mut [u8]) -> u64 {
    let pair = judged_pair(corners_in(a), f, corners_in(b), g);
    packed(pair.map(|(a, b)| Numbers::written(add::<_, false>(a, b, room_in(out)), f)))
}

/// The shape of both corner lists together, as bytes.
#[inline(never)]
pub fn merge_bytes(a: &[u8], f: u32, b: &[u8], g: u32, out: &mut [u8]) -> u64 {
    let pair = judged_pair(corners_in(a), f, corners_in(b), g);
    packed(pair.map(|(a, b)| {
        let (mut first, mut second) = (EMPTY, EMPTY);
        let mut hull = Hull::empty();
        merged(decoded(a, &mut first), decoded(b, &mut second), &mut hull);
        match checked_near(&hull.answer) {
            Ok(numbers) => Numbers::written(encoded(numbers, room_in(out)), f),
            Err(refusal) => refusal,
        }
    }))
}

/// 0 if the shapes are apart, 1 if they touch, 2 if they overlap.
#[inline(never)]
pub fn relation_bytes(a: &[u8], f: u32, b: &[u8], g: u32) -> u64 {
    let pair = judged_pair(corners_in(a), f, corners_in(b), g);
    packed(pair.map(|(a, b)| Numbers::one(related(a, b), f)))
}

/// The same shape with its corners as numbers.
#[inline(always)]
fn decoded<'a>(shape: Shape<Bytes>, room: &'a mut Decoded) -> Shape<'a> {
    let front = &mut room[..shape.corners.len()];
    for (to, from) in front.iter_mut().zip(shape.corners) {
        to.write(from.read());
    }
    Shape {
        // SAFETY: all of these were written.
        corners: unsafe { front.assume_init_ref() },
        top: shape.top,
    }
}

/// Writes the numbers at the front of the output, and returns how many corners they are; or refuses 8.
#[inline(always)]
fn encoded(numbers: &[i32], out: &mut [Bytes]) -> Result<usize, u64> {
    let corners = numbers.as_chunks().0;
    let front = out.get_mut(..corners.len()).ok_or(8_u64)?;
    for (to, from) in front.iter_mut().zip(corners) {
        *to = Bytes::of(*from);
    }
    Ok(corners.len())
}

/// A byte, a byte, two bytes and two bytes, from the low end.
#[inline(always)]
fn packed(reply: Result<Numbers, Numbers>) -> u64 {
    let (Ok(told) | Err(told)) = reply;
    told.refusal | told.shape << 8 | told.values[0] << 16 | told.values[1] << 32
}
