//! The origin against the edges of the differences of two shapes, whose corners are a corner of the first minus one of
//! the second.
use super::corner::{Edge, Stored, cross};
use super::judge::Shape;
use super::walk::Walk;
use std::ops::ControlFlow::{Break, Continue};

/// How the origin lies to the differences.
pub enum Origin {
    /// Outside of an edge.
    Outside(Facing),
    /// On the line of every edge: the differences are flat.
    InLine,
    /// On the line of an edge, and outside of none.
    OnRim,
    /// Left of every edge.
    Inside,
}

/// An edge of the differences that has the origin outside, and the positions of the corners whose difference it leaves.
/// Along the edge all of the first shape is left of its corner, and all of the second right of its own.
pub struct Facing {
    pub edge: Edge,
    pub first: usize,
    pub second: usize,
}

/// Walks the differences to the first edge that has the origin outside.
#[inline(always)]
pub fn origin<C: Stored>(a: Shape<C>, b: Shape<C>) -> Origin {
    let (mut on_some, mut on_all) = (false, true);
    let mut walk = Walk::<C, true>::of(a, b);
    let walked = walk.pass(|walk, next| {
        let turn = cross(walk.corner, walk.edge(next));
        on_some |= turn == 0;
        on_all &= turn == 0;
        if turn < 0 { Break(next) } else { Continue(()) }
    });
    match walked {
        Break(next) => Origin::Outside(Facing {
            edge: walk.edge(next),
            first: walk.first.at(),
            second: walk.second.at(),
        }),
        Continue(()) if on_all => Origin::InLine,
        Continue(()) if on_some => Origin::OnRim,
        Continue(()) => Origin::Inside,
    }
}

/// Whether two points or segments in one line have a point in common.
#[cold]
pub fn meet<C: Stored>(a: &[C], b: &[C]) -> bool {
    let along = |axis: usize| {
        let span = |c: &[C]| {
            let (p, q) = (c[0].read()[axis], c[c.len() - 1].read()[axis]);
            (p.min(q), p.max(q))
        };
        let ((low, high), (least, most)) = (span(a), span(b));
        low <= most && least <= high
    };
    along(0) && along(1)
}
