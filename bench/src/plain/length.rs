//! Length: the furthest pair is one that two parallel lines can hold between them.
use super::calipers::calipers;
use super::corner::squared;
use super::judge::{Shape, admitted};
use crate::reply::Numbers;
use std::ops::ControlFlow::Continue;

/// The greatest squared distance of two corners, and their positions.
#[inline(never)]
pub fn length(list: &[i32], floor: u32) -> Numbers {
    match admitted(list, floor) {
        Ok(shape) => {
            let Pair { squared, from, to } = longest(shape);
            Numbers::all([squared, from as u64, to as u64, floor.into()])
        }
        Err(refusal) => refusal,
    }
}

/// The best pair of those that the calipers hold. A point is its own.
#[inline(always)]
fn longest(shape: Shape) -> Pair {
    let mut best = Pair {
        squared: 0,
        from: 0,
        to: 0,
    };
    let _ = calipers(shape).pass(|walk, _| {
        best.meet(squared(walk.corner), walk.first.at(), walk.second.at());
        Continue::<()>(())
    });
    best
}

/// The best pair so far.
struct Pair {
    squared: u64,
    from: usize,
    to: usize,
}

impl Pair {
    /// Takes a pair that is longer, or as long and earlier.
    #[inline(always)]
    fn meet(&mut self, squared: u64, i: usize, j: usize) {
        if squared < self.squared {
            return;
        }
        let (from, to) = (i.min(j), i.max(j));
        if squared > self.squared || (from, to) < (self.from, self.to) {
            *self = Pair { squared, from, to };
        }
    }
}
