//! Directions in which one shape is below another: one offered, and one found.
use super::corner::{Corner, minus, value};
use super::differences::{Origin, meet, origin};
use super::direction;
use super::judge::{Shape, admitted_pair};
use crate::reply::Numbers;

/// 1 if every corner of the first is strictly below every corner of the second, else 0.
#[inline(never)]
pub fn offer(a: &[i32], f: u32, b: &[i32], g: u32, u: i32, v: i32) -> Numbers {
    let (a, b) = match admitted_pair(a, f, b, g) {
        Ok(pair) => pair,
        Err(refusal) => return refusal,
    };
    match direction::refused(u, v) {
        Some(number) => Numbers::refused(number),
        None => Numbers::one(below(a.corners, b.corners, [u, v]) as u64, f),
    }
}

/// The greatest value of the one against the least of the other.
#[inline(always)]
fn below(a: &[Corner], b: &[Corner], d: Corner) -> bool {
    let value = |&c: &Corner| value(d, c);
    a.iter().map(value).max() < b.iter().map(value).min()
}

/// A direction that is accepted if it is offered, or that there is none.
#[inline(never)]
pub fn find(a: &[i32], f: u32, b: &[i32], g: u32) -> Numbers {
    match admitted_pair(a, f, b, g) {
        Ok((a, b)) => Numbers::found(away(a, b).map(shortest), f),
        Err(refusal) => refusal,
    }
}

/// To the right of the first edge of the differences that has the origin outside; if these are flat,
/// from the one shape to the other.
#[inline(always)]
fn away(a: Shape, b: Shape) -> Option<Corner> {
    match origin(a, b) {
        Origin::Outside(facing) => {
            let [run, rise] = facing.edge.map(|part| part as i32);
            Some([rise, -run])
        }
        Origin::InLine if !meet(a.corners, b.corners) => Some(minus(b.corners[0], a.corners[0])),
        _ => None,
    }
}

/// The direction over the divisor of its parts.
#[inline(always)]
pub fn shortest([u, v]: Corner) -> Corner {
    let common = direction::divisor(u, v) as i32;
    [u / common, v / common]
}
