//! The edges of a shape in their order, the next one carried.
use super::corner::{Corner, Edge, Stored, edge};
use super::judge::Shape;

/// A shape on a walk round it, from one of its corners on: to the last corner of the list, then from the first one.
#[derive(Clone, Copy)]
pub struct Edges<'a, C> {
    /// the corners from the one that the next edge leaves to the end of the list, or of the way
    run: &'a [C],
    /// the corners from the first one on, if they come after those
    rest: &'a [C],
    /// the position after the last corner of the run
    end: usize,
    /// the next edge; none is left if it is (0, 0)
    pub edge: Edge,
}

/// How many edges a shape of n corners has. A point has none.
#[inline(always)]
pub fn edges(n: usize) -> usize {
    if n > 1 { n } else { 0 }
}

/// The position after it, on the way round n corners.
#[inline(always)]
pub fn after(i: usize, n: usize) -> usize {
    if i + 1 < n { i + 1 } else { 0 }
}

/// The position before it.
#[inline(always)]
pub fn before(i: usize, n: usize) -> usize {
    if i > 0 { i - 1 } else { n - 1 }
}

impl<'a, C: Stored> Edges<'a, C> {
    /// All edges from that corner on.
    #[inline(always)]
    pub fn of(corners: &'a [C], start: usize) -> Edges<'a, C> {
        let rest = if corners.len() > 1 { start + 1 } else { 0 };
        Edges::new(&corners[start..], &corners[..rest], corners.len())
    }

    /// The edges from corner 0 on, without the first `passed`.
    #[inline(always)]
    pub fn past(corners: &'a [C], passed: usize) -> Edges<'a, C> {
        if passed < edges(corners.len()) {
            Edges::new(&corners[passed..], &corners[..1], corners.len())
        } else {
            Edges::new(&corners[..1], &[], 1)
        }
    }

    /// The edges that go up, from the first corner to the top.
    #[inline(always)]
    pub fn up(shape: Shape<'a, C>) -> Edges<'a, C> {
        Edges::new(&shape.corners[..=shape.top], &[], shape.top + 1)
    }

    /// The edges that go down, from the top to the first corner.
    #[inline(always)]
    pub fn down(shape: Shape<'a, C>) -> Edges<'a, C> {
        Edges::past(shape.corners, shape.top)
    }

    #[inline(always)]
    fn new(run: &'a [C], rest: &'a [C], end: usize) -> Edges<'a, C> {
        let edge = match (run, rest) {
            ([from, to, ..], _) | ([from], [to, ..]) => edge(from.read(), to.read()),
            _ => [0, 0],
        };
        Edges {
            run,
            rest,
            end,
            edge,
        }
    }

    /// How many edges are left.
    #[inline(always)]
    pub fn left(&self) -> usize {
        self.run.len() + self.rest.len() - 1
    }

    /// The corner that the next edge leaves.
    #[inline(always)]
    pub fn corner(&self) -> Corner {
        self.run[0].read()
    }

    /// Its position.
    #[inline(always)]
    pub fn at(&self) -> usize {
        self.end - self.run.len()
    }

    /// On to the next corner. Whether an edge leaves it.
    #[inline(always)]
    pub fn step(&mut self) -> bool {
        if let [_, from, to, ..] = self.run {
            self.run = &self.run[1..];
            self.edge = edge(from.read(), to.read());
            return true;
        }
        *self = self.turned();
        self.left() > 0
    }

    /// The same where the run or the list ends.
    #[cold]
    #[inline(never)]
    fn turned(self) -> Edges<'a, C> {
        match self.run {
            [_, run @ ..] if !run.is_empty() => Edges::new(run, self.rest, self.end),
            _ => Edges::new(self.rest, &[], self.rest.len()),
        }
    }
}
