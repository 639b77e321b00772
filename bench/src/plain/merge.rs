//! The merge: a monotone scan of the right-hand chains upwards, then of the left-hand ones down.
use super::corner::{Corner, cross, edge};
use super::deliver::{Buffer, deliver_near};
use super::judge::{Shape, admitted_pair};
use crate::reply::Numbers;

/// The shape of both corner lists together.
#[inline(never)]
pub fn merge(a: &[i32], f: u32, b: &[i32], g: u32, out: &mut [i32]) -> Numbers {
    match admitted_pair(a, f, b, g) {
        Ok((a, b)) => {
            let mut hull = Hull::empty();
            merged(a, b, &mut hull);
            deliver_near(&hull.answer, f, out)
        }
        Err(refusal) => refusal,
    }
}

/// Scans both sides of both shapes.
#[inline(always)]
pub fn merged(a: Shape, b: Shape, hull: &mut Hull) {
    hull.scan::<true>(Chain::right(a), Chain::right(b));
    hull.turn();
    hull.scan::<false>(Chain::left(a), Chain::left(b));
    hull.close();
}

/// One side of a shape: the corners from a position to another, one after the last being the first.
struct Chain<'a> {
    corners: &'a [Corner],
    at: usize,
    end: usize,
    corner: Corner,
}

impl<'a> Chain<'a> {
    /// From the first corner up.
    #[inline(always)]
    fn right(shape: Shape<'a>) -> Chain<'a> {
        Chain {
            corners: shape.corners,
            at: 0,
            end: shape.top,
            corner: shape.corners[0],
        }
    }

    /// From the topmost corner down to the first. A point has only itself.
    #[inline(always)]
    fn left(shape: Shape<'a>) -> Chain<'a> {
        let end = if shape.top == 0 {
            0
        } else {
            shape.corners.len()
        };
        Chain {
            corners: shape.corners,
            at: shape.top,
            end,
            corner: shape.corners[shape.top],
        }
    }

    /// Whether there is a corner.
    #[inline(always)]
    fn more(&self) -> bool {
        self.at <= self.end
    }

    /// On to the next corner, if there is one.
    #[inline(always)]
    fn step(&mut self) {
        self.at += 1;
        let at = if self.at < self.corners.len() {
            self.at
        } else {
            0
        };
        // SAFETY: it is below the length.
        self.corner = unsafe { *self.corners.get_unchecked(at) };
    }
}

/// The corners kept so far; none below the floor is dropped any more.
pub struct Hull {
    pub answer: Buffer,
    floor: usize,
}

impl Hull {
    /// Nothing yet.
    #[inline(always)]
    pub fn empty() -> Hull {
        Hull {
            answer: Buffer::empty(),
            floor: 0,
        }
    }

    /// Adds two chains in one order, a corner that both have once.
    #[inline(always)]
    fn scan<const UP: bool>(&mut self, mut a: Chain, mut b: Chain) {
        while a.more() && b.more() {
            let (p, q) = (key(a.corner), key(b.corner));
            let (first, second) = if UP { (p, q) } else { (q, p) };
            if first <= second {
                self.add(a.corner);
                a.step();
                if first == second {
                    b.step();
                }
            } else {
                self.add(b.corner);
                b.step();
            }
        }
        while a.more() {
            self.add(a.corner);
            a.step();
        }
        while b.more() {
            self.add(b.corner);
            b.step();
        }
    }

    /// Drops the corners that a new one makes needless, and keeps it.
    #[inline(always)]
    pub fn add(&mut self, corner: Corner) {
        // SAFETY: two are held above the floor, and on each way no corner is pushed twice.
        unsafe {
            while self.answer.len() >= self.floor + 2 {
                let (last, before) = (self.answer.back(0), self.answer.back(1));
                if cross(edge(before, last), edge(last, corner)) > 0 {
                    break;
                }
                self.answer.pop();
            }
            self.answer.push(corner);
        }
    }

    /// The topmost corner ends the way up; the way down begins with it again.
    #[inline(always)]
    pub fn turn(&mut self) {
        self.answer.pop();
        self.floor = self.answer.len();
    }

    /// The way down ends at the first corner, which is at the front unless it is the only one.
    #[inline(always)]
    pub fn close(&mut self) {
        if self.answer.len() > 1 {
            self.answer.pop();
        }
    }
}

/// Numbers in the order of corners: by height, then from the left.
#[inline(always)]
pub fn key(p: Corner) -> i64 {
    p[1] as i64 * 4_194_304 + p[0] as i64
}
