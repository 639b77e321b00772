//! The sum, straight into the output; and the obstacle grown by a cart, which is the sum with the mirrored cart.
use super::corner::{Corner, Stored, opposite, plus, room_of};
use super::extent::extent;
use super::judge::{FURTHEST, MOST, Shape, admitted_pair};
use super::walk::Walk;
use crate::reply::Numbers;

/// The shape of all corner-plus-corner points.
#[inline(never)]
pub fn sum(a: &[i32], f: u32, b: &[i32], g: u32, out: &mut [i32]) -> Numbers {
    match admitted_pair(a, f, b, g) {
        Ok((a, b)) => Numbers::written(add::<_, false>(a, b, room_of(out)), f),
        Err(refusal) => refusal,
    }
}

/// The shape of all obstacle-corner minus cart-corner points.
#[inline(never)]
pub fn grow(obstacle: &[i32], f: u32, cart: &[i32], g: u32, out: &mut [i32]) -> Numbers {
    match admitted_pair(obstacle, f, cart, g) {
        Ok((obstacle, cart)) => Numbers::written(add::<_, true>(obstacle, cart, room_of(out)), f),
        Err(refusal) => refusal,
    }
}

/// Writes the sum at the front of the output. Returns how many corners it has, or refuses 6, 7 or 8.
#[inline(always)]
pub fn add<C: Stored, const MIRRORED: bool>(
    a: Shape<C>,
    b: Shape<C>,
    out: &mut [C],
) -> Result<usize, u64> {
    let mut walk = survey::<C, MIRRORED>(a, b)?;
    if walk.exceeds(out.len()) {
        return Err(8);
    }
    Ok(walk.write(out))
}

/// The walk round a sum, or refusal 6 or 7 of it.
#[inline(always)]
pub fn survey<'a, C: Stored, const MIRRORED: bool>(
    a: Shape<'a, C>,
    b: Shape<'a, C>,
) -> Result<Walk<'a, C, MIRRORED>, u64> {
    let walk = Walk::of(a, b);
    if walk.exceeds(MOST) {
        return Err(6);
    }
    if is_far::<C, MIRRORED>(a, b) {
        return Err(7);
    }
    Ok(walk)
}

/// Whether a corner of the sum is out of range. A sum spans the sum of what its shapes span.
#[inline(always)]
fn is_far<C: Stored, const MIRRORED: bool>(a: Shape<C>, b: Shape<C>) -> bool {
    let ([low, high], [mut least, mut most]) = (extent(a), extent(b));
    if MIRRORED {
        (least, most) = (opposite(most), opposite(least));
    }
    let outside = |p: Corner| p.iter().any(|z| z.abs() > FURTHEST);
    outside(plus(low, least)) || outside(plus(high, most))
}
