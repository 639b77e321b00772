//! The calipers: two parallel lines that turn round a shape by half a turn, and hold it between them.
use super::corner::Corner;
use super::edges::Edges;
use super::judge::Shape;
use super::walk::Walk;

/// Where the calipers begin: at the first corner and the top. The walk is that round the differences of the shape and
/// itself, as far as edges go up: each edge comes once, with the corner that is furthest from it.
#[inline(always)]
pub fn calipers(shape: Shape<'_>) -> Walk<'_, Corner, true> {
    Walk::at(Edges::up(shape), Edges::down(shape))
}
