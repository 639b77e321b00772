//! Inside: for each edge of the second shape, the corner of the first that is least to its left.
use super::corner::{Corner, cross, edge};
use super::edges::Edges;
use super::judge::admitted_pair;
use crate::reply::Numbers;

/// 1 if the first shape is inside the second, else 0.
#[inline(never)]
pub fn inside(a: &[i32], f: u32, b: &[i32], g: u32) -> Numbers {
    match admitted_pair(a, f, b, g) {
        Ok((a, b)) => Numbers::one(is_inside(a.corners, b.corners) as u64, f),
        Err(refusal) => refusal,
    }
}

/// Inside a point or a segment is what lies on it.
#[inline(always)]
pub fn is_inside(a: &[Corner], b: &[Corner]) -> bool {
    match b {
        [point] => a == [*point],
        [from, to] => a.iter().all(|&p| on_segment(p, *from, *to)),
        _ => around(a, b),
    }
}

/// Whether p lies on the segment, ends included.
fn on_segment(p: Corner, from: Corner, to: Corner) -> bool {
    let between = |k: usize| from[k].min(to[k]) <= p[k] && p[k] <= from[k].max(to[k]);
    cross(edge(from, to), edge(from, p)) == 0 && between(0) && between(1)
}

/// Walks the edges of both in one order: the edges of the first that come before an edge of the second lead to the
/// corner that is least to its left.
#[inline(always)]
fn around(a: &[Corner], b: &[Corner]) -> bool {
    let (mut inner, mut rim) = (Edges::of(a, 0), Edges::of(b, 0));
    let mut more = a.len() > 1;
    loop {
        while more && cross(inner.edge, rim.edge) > 0 {
            more = inner.step();
        }
        if cross(rim.edge, edge(rim.corner(), inner.corner())) < 0 {
            return false;
        }
        if !rim.step() {
            return true;
        }
    }
}
