//! What a shape spans, by halving: no corner but some near the extreme ones is looked at.
use super::corner::{Corner, Stored};
use super::edges::after;
use super::judge::Shape;
use std::hint::select_unpredictable;

/// The least x and y of a shape, and the greatest. Edges go right and then left on the way up, and left and then right
/// on the way down.
#[inline(always)]
pub fn extent<C: Stored>(shape: Shape<C>) -> [Corner; 2] {
    let Shape { corners, top } = shape;
    let n = corners.len();
    let x = |i: usize| corners[i].read()[0];
    let right = first(0, top, |i| x(i) < x(i + 1));
    let left = first(top, n, |i| x(i) > x(after(i, n)));
    let left = if left < n { left } else { 0 };
    [
        [x(left), corners[0].read()[1]],
        [x(right), corners[top].read()[1]],
    ]
}

/// The least squared distance between what two shapes span: no point of the one is nearer to the other.
#[inline(always)]
pub fn apart([low, high]: [Corner; 2], [least, most]: [Corner; 2]) -> u128 {
    let along = |k: usize| i64::from((least[k] - high[k]).max(low[k] - most[k]).max(0));
    let [x, y] = [along(0), along(1)];
    (x * x + y * y) as u128
}

/// The first position from one to another, or the latter, that no longer goes on; those that go on come first.
#[inline(always)]
fn first(mut from: usize, to: usize, goes_on: impl Fn(usize) -> bool) -> usize {
    let mut count = to - from;
    while count > 0 {
        let half = count / 2;
        let on = goes_on(from + half);
        from = select_unpredictable(on, from + half + 1, from);
        count = select_unpredictable(on, count - half - 1, half);
    }
    from
}
