//! The walk round the sum of two shapes, or of one and the other's mirror image: the edges of both in one order, two
//! that point the same way as one. No image is written: the second shape is read from its top, with its edges turned
//! round.
use super::corner::{Edge, Stored, back, cross, minus, plus};
use super::edges::Edges;
use super::judge::Shape;
use std::ops::ControlFlow::{self, Break, Continue};

/// Whose edge comes next.
#[derive(Clone, Copy, PartialEq, Eq)]
pub enum Next {
    First,
    Second,
    Both,
}

/// Two shapes on the walk, the second mirrored if that is said, and the corner that the walk is at.
#[derive(Clone, Copy)]
pub struct Walk<'a, C, const MIRRORED: bool> {
    pub first: Edges<'a, C>,
    pub second: Edges<'a, C>,
    pub corner: Edge,
}

impl<'a, C: Stored, const MIRRORED: bool> Walk<'a, C, MIRRORED> {
    /// At the lowest corner.
    #[inline(always)]
    pub fn of(a: Shape<'a, C>, b: Shape<'a, C>) -> Walk<'a, C, MIRRORED> {
        let start = if MIRRORED { b.top } else { 0 };
        Walk::at(Edges::of(a.corners, 0), Edges::of(b.corners, start))
    }

    /// At the corners that two shapes are at.
    #[inline(always)]
    pub fn at(first: Edges<'a, C>, second: Edges<'a, C>) -> Walk<'a, C, MIRRORED> {
        let (p, q) = (first.corner(), second.corner());
        let corner = if MIRRORED { minus(p, q) } else { plus(p, q) };
        Walk {
            first,
            second,
            corner: corner.map(i64::from),
        }
    }

    /// The next edge of the walk.
    #[inline(always)]
    pub fn edge(&self, next: Next) -> Edge {
        match next {
            Next::First => self.first.edge,
            Next::Second => self.second_edge(),
            Next::Both => along(self.first.edge, self.second_edge()),
        }
    }

    /// The next edge of the second shape.
    #[inline(always)]
    fn second_edge(&self) -> Edge {
        if MIRRORED {
            back(self.second.edge)
        } else {
            self.second.edge
        }
    }

    /// How many edges of both shapes are left.
    #[inline(always)]
    pub fn left(&self) -> usize {
        self.first.left() + self.second.left()
    }

    /// Passes all edges, and shows each while the walk is at the corner that it leaves. The next edges of both shapes
    /// are never half a turn apart, so the cross product alone tells which comes first.
    #[inline(always)]
    pub fn pass<B>(
        &mut self,
        mut show: impl FnMut(&Self, Next) -> ControlFlow<B>,
    ) -> ControlFlow<B> {
        let mut both = self.first.left() > 0 && self.second.left() > 0;
        while both {
            let turn = cross(self.first.edge, self.second_edge());
            if turn > 0 {
                show(self, Next::First)?;
                both = self.step_first();
            } else if turn < 0 {
                show(self, Next::Second)?;
                both = self.step_second();
            } else {
                show(self, Next::Both)?;
                both = self.step_first() & self.step_second();
            }
        }
        while self.first.left() > 0 {
            show(self, Next::First)?;
            self.step_first();
        }
        while self.second.left() > 0 {
            show(self, Next::Second)?;
            self.step_second();
        }
        Continue(())
    }

    /// Passes the next edge of the first shape. Whether one is left.
    #[inline(always)]
    fn step_first(&mut self) -> bool {
        self.corner = along(self.corner, self.first.edge);
        self.first.step()
    }

    /// Passes the next edge of the second shape. Whether one is left.
    #[inline(always)]
    fn step_second(&mut self) -> bool {
        self.corner = along(self.corner, self.second_edge());
        self.second.step()
    }

    /// Whether more than `most` corners are left. There is at most one for each edge, so that most often no corner is
    /// looked at.
    #[inline(always)]
    pub fn exceeds(self, most: usize) -> bool {
        self.left().max(1) > most && (most == 0 || self.counts_past(most))
    }

    /// The same, counted no further than it takes.
    #[inline(never)]
    fn counts_past(mut self, mut most: usize) -> bool {
        let passed = self.pass(|_, _| {
            if most == 0 {
                return Break(());
            }
            most -= 1;
            Continue(())
        });
        passed.is_break()
    }

    /// Writes the next corners, as many as the output has room for or as are left, and returns how many. The sum of two
    /// points has a corner and no edge.
    #[inline(always)]
    pub fn write(&mut self, out: &mut [C]) -> usize {
        if let ([slot, ..], 0) = (&mut *out, self.left()) {
            *slot = C::of(self.corner.map(|z| z as i32));
            return 1;
        }
        let mut room = out.iter_mut();
        let _ = self.pass(|walk, _| match room.next() {
            Some(slot) => {
                *slot = C::of(walk.corner.map(|z| z as i32));
                Continue(())
            }
            None => Break(()),
        });
        let rest = room.len();
        out.len() - rest
    }
}

/// Where an edge leads to from a corner; or two edges made one.
#[inline(always)]
fn along(p: Edge, e: Edge) -> Edge {
    [p[0] + e[0], p[1] + e[1]]
}
