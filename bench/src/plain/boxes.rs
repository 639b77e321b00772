//! The least box: calipers of four sides. For each edge three corners are held, the furthest forward, the furthest off
//! and the furthest back, and each goes on round the shape with the edge.
use super::corner::{Corner, Edge, cross, dot, edge, squared};
use super::edges::after;
use super::judge::admitted;
use super::wide::product;
use crate::reply::Numbers;

/// The edge that the least box lies along, its sides times the edge's length, and the squared length.
#[inline(never)]
pub fn least_box(list: &[i32], floor: u32) -> Numbers {
    match admitted(list, floor) {
        Ok(shape) if shape.corners.len() < 3 => Numbers::refused(10),
        Ok(shape) => {
            let found = least(shape.corners);
            let (edge, [height, along]) = (found.edge as u64, found.sides);
            Numbers::all([edge, height, along, found.squared, floor.into()])
        }
        Err(refusal) => refusal,
    }
}

/// A box that lies along an edge.
struct Box {
    edge: usize,
    sides: [u64; 2],
    squared: u64,
}

impl Box {
    /// More than any.
    const NONE: Box = Box {
        edge: 0,
        sides: [1 << 50; 2],
        squared: 1,
    };

    /// Whether it may be less, in floating point: most often it is not.
    #[inline(always)]
    fn may_be_less(&self, other: &Box) -> bool {
        let square = |sides: [u64; 2]| {
            let sum = (sides[0] + sides[1]) as f64;
            sum * sum
        };
        let (ours, theirs) = (square(self.sides), square(other.sides));
        ours * other.squared as f64 <= theirs * self.squared as f64 * (1.0 + 1e-12)
    }

    /// Both sides together, squared, over the squared length, as exact fractions: less than 2^88 over less than 2^43.
    #[inline(always)]
    fn is_less(&self, other: &Box) -> bool {
        let square = |sides: [u64; 2]| {
            let sum = u128::from(sides[0] + sides[1]);
            sum * sum
        };
        product(square(self.sides), other.squared) < product(square(other.sides), self.squared)
    }
}

/// The first of the least boxes. On the first edge the corner that is furthest back is sought from the one that is
/// furthest off.
#[inline(always)]
fn least(corners: &[Corner]) -> Box {
    let n = corners.len();
    let [mut forward, mut off] = [Held::at(corners, 1); 2];
    let first = edge(corners[0], corners[1]);
    off.pass(corners, |next| cross(first, next) > 0);
    let mut back = off;
    let mut best = Box::NONE;
    for (i, &corner) in corners.iter().enumerate() {
        let e = edge(corner, corners[after(i, n)]);
        forward.pass(corners, |next| dot(e, next) > 0);
        off.pass(corners, |next| cross(e, next) > 0);
        back.pass(corners, |next| dot(e, next) < 0);
        let found = Box {
            edge: i,
            sides: [
                cross(e, edge(corner, corners[off.at])) as u64,
                dot(e, edge(corners[back.at], corners[forward.at])) as u64,
            ],
            squared: squared(e),
        };
        if found.may_be_less(&best) && found.is_less(&best) {
            best = found;
        }
    }
    best
}

/// A corner that is held: its position, and the edge that leaves it.
#[derive(Clone, Copy)]
struct Held {
    at: usize,
    edge: Edge,
}

impl Held {
    #[inline(always)]
    fn at(corners: &[Corner], at: usize) -> Held {
        let edge = edge(corners[at], corners[after(at, corners.len())]);
        Held { at, edge }
    }

    /// Goes on as long as the next edge does.
    #[inline(always)]
    fn pass(&mut self, corners: &[Corner], goes_on: impl Fn(Edge) -> bool) {
        while goes_on(self.edge) {
            *self = Held::at(corners, after(self.at, corners.len()));
        }
    }
}
