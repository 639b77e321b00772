//! A sum in parts: a walk is begun, and each part hands back where the next goes on.
use super::corner::{Corner, Edge, cross, edge, is_up, room_of};
use super::edges::{Edges, after, edges};
use super::judge::admitted_pair;
use super::sum::survey;
use super::walk::Walk;
use crate::reply::Numbers;

/// How many edges of either shape are passed, and whether all corners of the sum are written.
#[derive(Clone, Copy, Debug, PartialEq, Eq)]
pub struct Place {
    pub first: usize,
    pub second: usize,
    pub over: bool,
}

/// The place at which a sum in parts begins.
#[inline(never)]
pub fn begin(a: &[i32], f: u32, b: &[i32], g: u32) -> Numbers {
    match admitted_pair(a, f, b, g) {
        Ok((a, b)) => match survey::<_, false>(a, b) {
            Ok(_) => Numbers::all([0, 0, 0]),
            Err(number) => Numbers::refused(number),
        },
        Err(refusal) => refusal,
    }
}

/// Writes the next corners of a sum, at most k, and answers how many, and the place after them.
#[inline(never)]
pub fn part(
    a: &[i32],
    f: u32,
    b: &[i32],
    g: u32,
    place: Place,
    k: usize,
    out: &mut [i32],
) -> Numbers {
    let (a, b) = match admitted_pair(a, f, b, g) {
        Ok(pair) => pair,
        Err(refusal) => return refusal,
    };
    if !place.is_of(a.corners, b.corners) {
        return Numbers::refused(14);
    }
    if let Err(number) = survey::<_, false>(a, b) {
        return Numbers::refused(number);
    }
    match place.on(a.corners, b.corners, k, room_of(out)) {
        Ok((count, to)) => to.told(count, f.into()),
        Err(number) => Numbers::refused(number),
    }
}

impl Place {
    /// Before the first corner.
    pub const BEGUN: Place = Place {
        first: 0,
        second: 0,
        over: false,
    };

    /// Whether it is a place of the sum: the last edge passed of either shape is before the next of the other.
    #[inline(always)]
    fn is_of(self, a: &[Corner], b: &[Corner]) -> bool {
        let (ours, theirs) = (edges(a.len()), edges(b.len()));
        if self.first > ours || self.second > theirs {
            return false;
        }
        let at_end = self.first == ours && self.second == theirs;
        (self.over == at_end || ours + theirs == 0)
            && follows(a, self.first, b, self.second)
            && follows(b, self.second, a, self.first)
    }

    /// Writes at most k corners from the place on, and returns how many and the place after them; or refuses 8.
    #[inline(always)]
    fn on(
        self,
        a: &[Corner],
        b: &[Corner],
        k: usize,
        out: &mut [Corner],
    ) -> Result<(usize, Place), u64> {
        if self.over || k == 0 {
            return Ok((0, self));
        }
        let mut walk =
            Walk::<_, false>::at(Edges::past(a, self.first), Edges::past(b, self.second));
        let room = out.len().min(k);
        if room < k && walk.exceeds(room) {
            return Err(8);
        }
        let count = walk.write(&mut out[..room]);
        let to = Place {
            first: edges(a.len()) - walk.first.left(),
            second: edges(b.len()) - walk.second.left(),
            over: walk.left() == 0,
        };
        Ok((count, to))
    }

    /// The answer of a part.
    #[inline(always)]
    fn told(self, count: usize, floor: u64) -> Numbers {
        let Place {
            first,
            second,
            over,
        } = self;
        Numbers::all([
            count as u64,
            first as u64,
            second as u64,
            over.into(),
            floor,
        ])
    }
}

/// Whether the last edge passed of a shape, if there is one, is before the next of the other, if there is one.
#[inline(always)]
fn follows(a: &[Corner], i: usize, b: &[Corner], j: usize) -> bool {
    i == 0 || j == edges(b.len()) || is_before(edge_at(a, i - 1), edge_at(b, j))
}

/// The edge that leaves a corner.
#[inline(always)]
fn edge_at(list: &[Corner], i: usize) -> Edge {
    edge(list[i], list[after(i, list.len())])
}

/// Whether an edge comes before another by direction, from level to the right all the way round.
#[inline(always)]
fn is_before(e: Edge, f: Edge) -> bool {
    if is_up(e) == is_up(f) {
        cross(e, f) > 0
    } else {
        is_up(e)
    }
}
