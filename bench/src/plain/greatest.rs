//! The greatest distance of two shapes: it is had at a corner of their differences, all of which one walk passes.
use super::corner::squared;
use super::judge::{Shape, admitted_pair};
use super::walk::Walk;
use crate::reply::Numbers;
use std::ops::ControlFlow::Continue;

/// The greatest squared distance of a corner of the first and a corner of the second, and their positions.
#[inline(never)]
pub fn greatest(a: &[i32], f: u32, b: &[i32], g: u32) -> Numbers {
    match admitted_pair(a, f, b, g) {
        Ok((a, b)) => {
            let Pair { squared, at } = furthest(a, b);
            Numbers::all([squared, at.0 as u64, at.1 as u64, f.into()])
        }
        Err(refusal) => refusal,
    }
}

/// The first of the greatest differences. Inside an edge of the differences all are less than at one of its ends, so
/// that two parallel edges may be passed as one.
#[inline(always)]
fn furthest(a: Shape, b: Shape) -> Pair {
    let mut walk = Walk::<_, true>::of(a, b);
    let mut best = Pair {
        squared: squared(walk.corner),
        at: (walk.first.at(), walk.second.at()),
    };
    let _ = walk.pass(|walk, _| {
        let squared = squared(walk.corner);
        if squared >= best.squared {
            best.meet(squared, (walk.first.at(), walk.second.at()));
        }
        Continue::<()>(())
    });
    best
}

/// The best pair so far.
struct Pair {
    squared: u64,
    at: (usize, usize),
}

impl Pair {
    /// Takes a pair that is further apart, or as far and earlier.
    #[inline(always)]
    fn meet(&mut self, squared: u64, at: (usize, usize)) {
        if squared > self.squared || at < self.at {
            *self = Pair { squared, at };
        }
    }
}
