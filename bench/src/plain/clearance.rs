//! Clearance: the place of the differences that is nearest to the origin, found in one walk round them.
use super::corner::{Corner, cross, dot, edge, minus, opposite, squared};
use super::edges::after;
use super::judge::{Shape, admitted_pair};
use super::root::rounded;
use super::walk::{Next, Walk};
use crate::reply::Numbers;
use std::ops::ControlFlow::{Break, Continue};

/// Where two shapes are nearest, and how near.
#[inline(never)]
pub fn clearance(a: &[i32], f: u32, b: &[i32], g: u32) -> Numbers {
    match admitted_pair(a, f, b, g) {
        Ok((a, b)) => between_shapes(a, b, f),
        Err(refusal) => refusal,
    }
}

/// The same of two shapes on a floor.
#[inline(always)]
pub fn between_shapes(a: Shape, b: Shape, floor: u32) -> Numbers {
    match place(a, b) {
        Some(place) => place.told(a.corners, b.corners, floor.into()),
        None => Numbers::one(0, floor),
    }
}

/// The squared distance that was answered, top and bottom. No product of two is more than 1.3·10^38.
#[inline(always)]
pub fn distance(found: Numbers) -> (u128, u128) {
    match found.values {
        [0, ..] => (0, 1),
        [1, _, _, squared, ..] => (squared.into(), 1),
        [_, _, _, turn, squared, ..] => (u128::from(turn) * u128::from(turn), squared.into()),
    }
}

/// The direction from b to a along which they are nearest; none if they are not apart.
#[inline(always)]
pub fn towards(a: Shape, b: Shape) -> Option<Corner> {
    let place = place(a, b)?;
    let step = |list: &[Corner], i: usize| minus(list[after(i, list.len())], list[i]);
    let (first, second) = (place.first, place.second);
    let [x, y] = match place.edge {
        None => return Some(minus(a.corners[first], b.corners[second])),
        Some(Next::First) => step(a.corners, first),
        Some(Next::Second) => opposite(step(b.corners, second)),
        Some(Next::Both) => minus(step(a.corners, first), step(b.corners, second)),
    };
    Some([-y, x])
}

/// The place of the differences nearest to the origin: the corner that is made of these corners of the two shapes, or
/// inside the edge that leaves it, which is an edge of one shape or of both.
pub struct Place {
    first: usize,
    second: usize,
    edge: Option<Next>,
}

/// The nearest place, or none if the origin is not outside. Both a corner whose neighbours are not nearer along it, and
/// an edge that has the origin to its right and the origin's foot strictly inside, tell that it is outside. What comes
/// before the first corner is known at the end of the walk.
#[inline(always)]
pub fn place(a: Shape, b: Shape) -> Option<Place> {
    let mut nearer = false;
    let mut walk = Walk::<Corner, true>::of(a, b);
    let walked = walk.pass(|walk, next| {
        let (corner, e) = (walk.corner, walk.edge(next));
        let way = dot(corner, e);
        if way >= 0 {
            if nearer && corner != [0, 0] {
                return Break(None);
            }
            nearer = false;
            return Continue(());
        }
        let left = way + dot(e, e);
        if left > 0 && cross(corner, e) < 0 {
            return Break(Some(next));
        }
        nearer = left <= 0;
        Continue(())
    });
    let (first, second) = (walk.first.at(), walk.second.at());
    match walked {
        Break(edge) => Some(Place {
            first,
            second,
            edge,
        }),
        Continue(()) => begun(a, b, nearer),
    }
}

/// The first corner of the walk, if it is nearest. None is before it if both shapes are points.
fn begun(a: Shape, b: Shape, nearer: bool) -> Option<Place> {
    let (first, second) = (0, b.top);
    let corner = edge(b.corners[second], a.corners[first]);
    let alone = a.corners.len() + b.corners.len() == 2;
    let mut walk = Walk::<Corner, true>::of(a, b);
    let leaves = walk.pass(|walk, next| Break(dot(corner, walk.edge(next)) >= 0));
    let found = corner != [0, 0] && (alone || nearer && leaves == Break(true));
    found.then_some(Place {
        first,
        second,
        edge: None,
    })
}

impl Place {
    /// The answer: two corners, or a corner and an edge.
    pub fn told(&self, a: &[Corner], b: &[Corner], floor: u64) -> Numbers {
        match self.edge {
            None => between(a, self.first, b, self.second, floor),
            Some(Next::First) => across(3, b, self.second, a, self.first, floor),
            Some(Next::Second) => across(2, a, self.first, b, self.second, floor),
            Some(Next::Both) => self.parallel(a, b, floor),
        }
    }

    /// Of two parallel edges the first corners that face each other, else the first corner of the first that is over
    /// the edge of the second, else the reverse.
    fn parallel(&self, a: &[Corner], b: &[Corner], floor: u64) -> Numbers {
        let ends = |i: usize, n: usize| [i.min(after(i, n)), i.max(after(i, n))];
        let (ours, theirs) = (ends(self.first, a.len()), ends(self.second, b.len()));
        let along = edge(a[ours[0]], a[ours[1]]);
        let pairs = ours.iter().flat_map(|&i| theirs.map(|j| (i, j)));
        let mut facing = pairs.filter(|&(i, j)| dot(along, edge(a[i], b[j])) == 0);
        if let Some((i, j)) = facing.next() {
            return between(a, i, b, j, floor);
        }
        match ours.iter().find(|&&i| is_over(a[i], b, theirs)) {
            Some(&i) => across(2, a, i, b, self.second, floor),
            None => {
                let over = theirs.iter().find(|&&j| is_over(b[j], a, ours));
                across(3, b, *over.unwrap_or(&0), a, self.first, floor)
            }
        }
    }
}

/// Whether the foot of a corner is strictly between two corners of a list.
fn is_over(corner: Corner, list: &[Corner], [i, j]: [usize; 2]) -> bool {
    let e = edge(list[i], list[j]);
    let way = dot(e, edge(list[i], corner));
    0 < way && way < dot(e, e)
}

/// Corner i of a and corner j of b, with their squared distance and its root.
fn between(a: &[Corner], i: usize, b: &[Corner], j: usize, floor: u64) -> Numbers {
    let distance = squared(edge(a[i], b[j]));
    Numbers::all([1, i as u64, j as u64, distance, distance.isqrt(), floor])
}

/// A corner of one shape and an edge of the other, with the turn, the squared edge and the rounded distance. Both edges
/// of a segment are its edge 0.
fn across(
    kind: u64,
    a: &[Corner],
    corner: usize,
    b: &[Corner],
    edge_at: usize,
    floor: u64,
) -> Numbers {
    let i = if b.len() == 2 { 0 } else { edge_at };
    let e = edge(b[i], b[after(i, b.len())]);
    let turn = cross(e, edge(b[i], a[corner])).unsigned_abs();
    let length = squared(e);
    let root = rounded(turn, length);
    Numbers::all([kind, corner as u64, i as u64, turn, length, root, floor])
}
