//! The lines that just touch two shapes: each is first drawn between two corners that face each other, then its ends
//! move round the shapes until these are on their sides of it.
use super::corner::{Corner, cross, dot, edge, squared};
use super::differences::{Facing, Origin, meet, origin};
use super::edges::{after, before};
use super::judge::{Shape, admitted_pair};
use crate::reply::Numbers;

/// The four lines: both shapes on the left, both on the right, the first left and the second right, the reverse.
#[inline(never)]
pub fn tangents(a: &[i32], f: u32, b: &[i32], g: u32) -> Numbers {
    match admitted_pair(a, f, b, g) {
        Ok((a, b)) => lines(a, b, f.into()).unwrap_or(Numbers::refused(9)),
        Err(refusal) => refusal,
    }
}

/// The positions of the ends of all four, or none if the shapes are not apart.
#[inline(always)]
fn lines(a: Shape, b: Shape, floor: u64) -> Option<Numbers> {
    let start = facing(a, b)?;
    let line = |sides| touching(a.corners, b.corners, start, sides);
    let [[a0, b0], [a1, b1], [a2, b2], [a3, b3]] =
        [[true, true], [false, false], [true, false], [false, true]].map(line);
    let ends = [a0, b0, a1, b1, a2, b2, a3, b3].map(|i| i as u64);
    let mut values = [floor; 9];
    values[..8].copy_from_slice(&ends);
    Some(Numbers::all(values))
}

/// Two corners that face each other across a line that parts the shapes. Of shapes in one line they are the nearest
/// two.
#[inline(always)]
fn facing(a: Shape, b: Shape) -> Option<[usize; 2]> {
    match origin(a, b) {
        Origin::Outside(Facing { first, second, .. }) => Some([first, second]),
        Origin::InLine if !meet(a.corners, b.corners) => nearest(a.corners, b.corners),
        _ => None,
    }
}

/// The two corners of points or segments that are nearest.
fn nearest(a: &[Corner], b: &[Corner]) -> Option<[usize; 2]> {
    let pairs = (0..a.len()).flat_map(|i| (0..b.len()).map(move |j| [i, j]));
    pairs.min_by_key(|&[i, j]| squared(edge(a[i], b[j])))
}

/// The line that has the first shape on its left if the first side is true, else on its right; and the second likewise.
/// Each end moves to where it rests, by turns. With the line that parts the shapes upright, the first is to the left
/// and the second to the right. So the first comes to lie left of the line between them as its end moves clockwise, and
/// the second as its end moves counterclockwise. The end of a line that crosses from side to side may first go too far.
#[inline(always)]
fn touching(
    a: &[Corner],
    b: &[Corner],
    [mut from, mut to]: [usize; 2],
    [first, second]: [bool; 2],
) -> [usize; 2] {
    loop {
        from = rest(a, from, !first, |p, x| is_better(p, b[to], x, first));
        let end = rest(b, to, second, |q, x| is_better(q, a[from], x, !second));
        if end == to {
            return [from, to];
        }
        to = end;
    }
}

/// The position at which an end of a line rests, looked for one way round and, if it does not move, the other.
#[inline(always)]
fn rest(
    list: &[Corner],
    at: usize,
    counterclockwise: bool,
    is_better: impl Fn(Corner, Corner) -> bool,
) -> usize {
    let ahead = |i| after(i, list.len());
    let back = |i| before(i, list.len());
    let moves = |i: usize, next: usize| is_better(list[i], list[next]);
    if counterclockwise {
        moved(at, ahead, moves)
            .or_else(|| moved(at, back, moves))
            .unwrap_or(at)
    } else {
        moved(at, back, moves)
            .or_else(|| moved(at, ahead, moves))
            .unwrap_or(at)
    }
}

/// The position that an end moves to in steps, or none if it does not move.
#[inline(always)]
fn moved(
    from: usize,
    step: impl Fn(usize) -> usize,
    moves: impl Fn(usize, usize) -> bool,
) -> Option<usize> {
    let mut at = from;
    while moves(at, step(at)) {
        at = step(at);
    }
    (at != from).then_some(at)
}

/// Whether x is a better start of the line to q than p: p has x on the wrong side of the line, or on it and nearer to
/// q.
#[inline(always)]
fn is_better(p: Corner, q: Corner, x: Corner, left: bool) -> bool {
    let (line, other) = (edge(p, q), edge(p, x));
    match cross(line, other) {
        0 => dot(line, other) > 0,
        turn => (turn < 0) == left,
    }
}
