//! What is wrong with a list that failed the one pass: 4 with the first edge and corner, or 5.
use super::corner::{Stored, cross, edge};
use crate::reply::Numbers;

/// Refusal 4 or 5 of a list in range that is no shape.
#[cold]
#[inline(never)]
pub fn blame<C: Stored>(corners: &[C], which: u64) -> Numbers {
    match first_broken(corners) {
        Some((edge, corner)) => Numbers::broken(which, edge, corner),
        None => Numbers::blamed(5, which),
    }
}

/// The first edge, then the first other corner, that break the left rule. None breaks it in a shape that begins at
/// another corner than the lowest, which takes one pass to tell.
fn first_broken<C: Stored>(corners: &[C]) -> Option<(usize, usize)> {
    if keeps_left(corners) {
        return None;
    }
    if let [p, q] = corners {
        return (p.read() == q.read()).then_some((0, 1));
    }
    (0..corners.len()).find_map(|i| Some((i, first_not_left(corners, i)?)))
}

/// Whether the edges go round once, each strictly left of the one before it: from the lowest corner on, none goes up
/// after one that goes down. It is asked of three corners or more.
fn keeps_left<C: Stored>(corners: &[C]) -> bool {
    if corners.len() < 3 {
        return false;
    }
    let (before, after) = corners.split_at(bottom(corners));
    let way = after.iter().chain(before).chain(after.first());
    let mut way = way.map(Stored::read);
    let (Some(first), Some(mut corner)) = (way.next(), way.next()) else {
        return false;
    };
    let mut last = edge(first, corner);
    way.all(|next| {
        let e = edge(corner, next);
        let left = cross(last, e) > 0 && (last[1] >= 0 || e[1] < 0);
        (last, corner) = (e, next);
        left
    })
}

/// The first corner that edges go down to and do not go down from, or the first of the list.
fn bottom<C: Stored>(corners: &[C]) -> usize {
    let y = |k: usize| corners[k].read()[1];
    let last = corners.len() - 1;
    let inner = corners.windows(3).position(|w| {
        let [a, b, c] = [&w[0], &w[1], &w[2]].map(|p| p.read()[1]);
        a > b && b <= c
    });
    match inner {
        Some(k) => k + 1,
        None if y(last - 1) > y(last) && y(last) <= y(0) => last,
        None => 0,
    }
}

/// The first corner that is not strictly left of the edge i, among those that are no end of it.
fn first_not_left<C: Stored>(corners: &[C], i: usize) -> Option<usize> {
    let next = (i + 1) % corners.len();
    let start = corners[i].read();
    let e = edge(start, corners[next].read());
    let mut others = (0..corners.len()).filter(|&k| k != i && k != next);
    others.find(|&k| cross(e, edge(start, corners[k].read())) <= 0)
}
