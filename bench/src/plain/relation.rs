//! Relation: the origin against the edges of the differences.
use super::corner::Stored;
use super::differences::{Origin, meet, origin};
use super::judge::{Shape, admitted_pair};
use crate::reply::Numbers;

const APART: u64 = 0;
const TOUCHING: u64 = 1;
const OVERLAPPING: u64 = 2;

/// 0 if the shapes are apart, 1 if they touch, 2 if they overlap.
#[inline(never)]
pub fn relation(a: &[i32], f: u32, b: &[i32], g: u32) -> Numbers {
    match admitted_pair(a, f, b, g) {
        Ok((a, b)) => Numbers::one(related(a, b), f),
        Err(refusal) => refusal,
    }
}

/// What follows from where the origin is.
#[inline(always)]
pub fn related<C: Stored>(a: Shape<C>, b: Shape<C>) -> u64 {
    match origin(a, b) {
        Origin::Outside(_) => APART,
        Origin::InLine if meet(a.corners, b.corners) => TOUCHING,
        Origin::InLine => APART,
        Origin::OnRim => TOUCHING,
        Origin::Inside => OVERLAPPING,
    }
}
