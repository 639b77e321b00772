//! The four lines that just touch two shapes which are apart (document 02, W1): every pair of a
//! corner of the first and a corner of the second tried, as a line from the one to the other.

use crate::plane::{Point, squared_distance, turn};
use crate::refusal::Refusal;
use crate::separation::{Relation, relation};

#[derive(Clone, Copy, Debug, PartialEq, Eq)]
pub enum Side {
    Left,
    Right,
}

/// The sides of the first shape and of the second.
pub type Kind = (Side, Side);

/// In the order of the answer.
pub const KINDS: [Kind; 4] = [
    (Side::Left, Side::Left),
    (Side::Right, Side::Right),
    (Side::Left, Side::Right),
    (Side::Right, Side::Left),
];

/// A position in the first shape and one in the second.
pub type Pair = (usize, usize);

/// The line of each kind, or 9 if the shapes are not apart.
pub fn tangents(a: &[Point], b: &[Point]) -> Result<[Pair; 4], Refusal> {
    if relation(a, b) != Relation::Apart {
        return Err(Refusal::plain(9));
    }
    Ok(KINDS.map(|kind| only_nearest(a, b, kind)))
}

/// 02 says that there is one. Were there none or several, no answer would be right: that is loud.
fn only_nearest(a: &[Point], b: &[Point], kind: Kind) -> Pair {
    match nearest(a, b, kind)[..] {
        [pair] => pair,
        ref pairs => panic!("{kind:?}: not one pair but {pairs:?}, for {a:?} and {b:?}"),
    }
}

/// The pairs of the kind of which none is nearer.
fn nearest(a: &[Point], b: &[Point], kind: Kind) -> Vec<Pair> {
    let distance = |&(i, j): &Pair| squared_distance(a[i], b[j]);
    let mut pairs = pairs_of_kind(a, b, kind);
    let least = pairs.iter().map(distance).min();
    pairs.retain(|pair| Some(distance(pair)) == least);
    pairs
}

/// The pairs whose line has each shape on its side or on the line.
fn pairs_of_kind(a: &[Point], b: &[Point], kind: Kind) -> Vec<Pair> {
    let all = (0..a.len()).flat_map(|i| (0..b.len()).map(move |j| (i, j)));
    let touches = |&(i, j): &Pair| {
        let line = (a[i], b[j]);
        beside(line, kind.0, a) && beside(line, kind.1, b)
    };
    all.filter(touches).collect()
}

/// Whether the whole shape is on this side of the line or on the line.
fn beside((from, to): (Point, Point), side: Side, shape: &[Point]) -> bool {
    let on_side = |&corner: &Point| match side {
        Side::Left => turn(from, to, corner) >= 0,
        Side::Right => turn(from, to, corner) <= 0,
    };
    shape.iter().all(on_side)
}

#[cfg(test)]
mod tests;
