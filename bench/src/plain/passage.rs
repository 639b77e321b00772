//! Passage: both obstacles grown by the cart, and the direction from the one to the other along which they are nearest.
use super::clearance::towards;
use super::corner::{Corner, corners_of};
use super::judge::{MOST, Shape, judged, on_one_floor, top};
use super::root::rounded;
use super::separating::shortest;
use super::sum::add;
use crate::reply::Numbers;

/// Whether a cart may pass straight between two obstacles: 0; or 1, the direction across, the two lines and the width.
#[inline(never)]
pub fn passage(left: &[i32], f: u32, right: &[i32], g: u32, cart: &[i32], h: u32) -> Numbers {
    match asked(left, f, right, g, cart, h) {
        Ok(told) | Err(told) => told,
    }
}

fn asked(
    left: &[i32],
    f: u32,
    right: &[i32],
    g: u32,
    cart: &[i32],
    h: u32,
) -> Result<Numbers, Numbers> {
    let left = judged(corners_of(left), 1)?;
    let right = judged(corners_of(right), 2)?;
    let cart = judged(corners_of(cart), 3)?;
    on_one_floor(f, g)?;
    on_one_floor(f, h)?;
    let (mut above, mut below) = ([[0; 2]; MOST], [[0; 2]; MOST]);
    let above = grown(left, cart, &mut above)?;
    let below = grown(right, cart, &mut below)?;
    Ok(match towards(above, below) {
        Some(d) => way(above.corners, below.corners, shortest(d), f),
        None => Numbers::one(0, f),
    })
}

/// The obstacle grown by the cart, or refusal 6 or 7.
#[inline(always)]
fn grown<'a>(
    obstacle: Shape,
    cart: Shape,
    buffer: &'a mut [Corner; MOST],
) -> Result<Shape<'a>, Numbers> {
    let n = add::<_, true>(obstacle, cart, buffer).map_err(Numbers::refused)?;
    let corners = &buffer[..n];
    let top = top(corners).unwrap_or(0);
    Ok(Shape { corners, top })
}

/// The greatest value of the one below, the least of the one above, and what is between, over the direction's length.
#[inline(always)]
fn way(above: &[Corner], below: &[Corner], [u, v]: Corner, floor: u32) -> Numbers {
    let (u, v) = (i64::from(u), i64::from(v));
    let value = |c: &Corner| u * i64::from(c[0]) + v * i64::from(c[1]);
    let low = below.iter().map(value).max().unwrap_or(0);
    let high = above.iter().map(value).min().unwrap_or(0);
    let width = rounded((high - low) as u64, (u * u + v * v) as u64);
    let [u, v, low, high] = [u, v, low, high].map(|z| z as u64);
    Numbers::all([1, u, v, low, high, width, floor.into()])
}
