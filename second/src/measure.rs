//! Furthest corner, length, area, width and least box of one shape, and the greatest distance of two:
//! every corner, pair and edge tried.

use crate::direction;
use crate::plane::{Point, dot, edge_ends, squared_distance, turn, value};
use crate::refusal::Refusal;
use crate::wide::product;

/// The first and the last of the corners with the greatest value, counterclockwise, and that value.
/// Where all have it there is no turn: a point is 0 and 0, a segment 0 and 1.
pub fn furthest(shape: &[Point], direction: Point) -> Result<(usize, usize, i128), Refusal> {
    direction::judge(direction)?;
    let n = shape.len();
    let (_, greatest) = first_greatest(shape.iter().map(|&c| value(direction, c)));
    let tied = |i: usize| value(direction, shape[i % n]) == greatest;
    let first = (0..n).find(|&i| tied(i) && !tied(i + n - 1));
    let last = (0..n).find(|&i| tied(i) && !tied(i + 1));
    Ok((first.unwrap_or(0), last.unwrap_or(n - 1), greatest))
}

/// The greatest squared distance with its positions i ≤ j, smallest i and then smallest j.
pub fn length(shape: &[Point]) -> (i128, usize, usize) {
    let mut best = (0, 0, 0);
    for i in 0..shape.len() {
        for j in i..shape.len() {
            let distance = squared_distance(shape[i], shape[j]);
            if distance > best.0 {
                best = (distance, i, j);
            }
        }
    }
    best
}

/// The greatest squared distance of a corner of the first and a corner of the second, smallest i and
/// then smallest j. Ours, not of document 01.
pub fn greatest(a: &[Point], b: &[Point]) -> (i128, usize, usize) {
    let mut best = (-1, 0, 0);
    for (i, &p) in a.iter().enumerate() {
        for (j, &q) in b.iter().enumerate() {
            let distance = squared_distance(p, q);
            if distance > best.0 {
                best = (distance, i, j);
            }
        }
    }
    best
}

/// Twice the area: of the triangles that the first corner makes with each edge.
pub fn twice_area(shape: &[Point]) -> i128 {
    let edges = shape.windows(2);
    edges.map(|edge| turn(shape[0], edge[0], edge[1])).sum()
}

#[derive(Clone, Copy, Debug, PartialEq, Eq)]
pub struct Width {
    pub edge: usize,
    pub corner: usize,
    pub t: i128,
    pub q: i128,
    pub w: i128,
}

/// The edge with the least t·t/q, smallest position on a tie; 10 for a point or a segment.
pub fn width(shape: &[Point]) -> Result<Width, Refusal> {
    if shape.len() < 3 {
        return Err(Refusal::plain(10));
    }
    let mut best = width_at(shape, 0);
    for edge in 1..shape.len() {
        let next = width_at(shape, edge);
        if narrower(&next, &best) {
            best = next;
        }
    }
    best.w = rounded_root(best.t * best.t, best.q);
    Ok(best)
}

/// One edge's greatest turn and squared length; w stays open.
fn width_at(shape: &[Point], edge: usize) -> Width {
    let (a, b) = edge_ends(shape, edge);
    let (corner, t) = first_greatest(shape.iter().map(|&c| turn(a, b, c)));
    let q = squared_distance(a, b);
    Width {
        edge,
        corner,
        t,
        q,
        w: 0,
    }
}

/// t·t/q as exact fractions. Three points in range turn at most 4·10^12 and q is at most 8·10^12,
/// so the products stay below 1.3·10^38, and i128 ends at 1.7·10^38.
fn narrower(a: &Width, b: &Width) -> bool {
    a.t * a.t * b.q < b.t * b.t * a.q
}

/// A box that lies along an edge: its height times the edge's length, its side along the edge times
/// that length, and the squared length.
#[derive(Clone, Copy, Debug, PartialEq, Eq)]
pub struct LeastBox {
    pub edge: usize,
    pub t: i128,
    pub s: i128,
    pub q: i128,
}

/// The edge whose box has the least perimeter, smallest position on a tie; 10 for a point or a segment.
/// Ours, not of document 01.
pub fn least_box(shape: &[Point]) -> Result<LeastBox, Refusal> {
    if shape.len() < 3 {
        return Err(Refusal::plain(10));
    }
    let boxes = (0..shape.len()).map(|edge| box_at(shape, edge));
    let least = boxes.reduce(|best, next| if smaller(&next, &best) { next } else { best });
    Ok(least.expect("three edges"))
}

fn box_at(shape: &[Point], edge: usize) -> LeastBox {
    let (a, b) = edge_ends(shape, edge);
    let (_, t) = first_greatest(shape.iter().map(|&c| turn(a, b, c)));
    let (_, most) = first_greatest(shape.iter().map(|&c| dot(b - a, c)));
    let (_, back) = first_greatest(shape.iter().map(|&c| dot(a - b, c)));
    LeastBox {
        edge,
        t,
        s: most + back,
        q: squared_distance(a, b),
    }
}

/// (t+s)·(t+s)/q as exact fractions: the products may pass 128 bits.
fn smaller(a: &LeastBox, b: &LeastBox) -> bool {
    let side = |of: &LeastBox| (of.t + of.s).unsigned_abs();
    let times = |of: &LeastBox, q: i128| product(side(of) * side(of), q.unsigned_abs());
    times(a, b.q) < times(b, a.q)
}

/// The w with w·w·bottom ≤ top < (w+1)·(w+1)·bottom, between 0 and the range's diagonal.
pub fn rounded_root(top: i128, bottom: i128) -> i128 {
    let (mut low, mut high) = (0, 3_000_000);
    while high - low > 1 {
        let middle = (low + high) / 2;
        if middle * middle * bottom <= top {
            low = middle;
        } else {
            high = middle;
        }
    }
    low
}

/// The greatest of the numbers and the first position that has it.
fn first_greatest(numbers: impl Iterator<Item = i128>) -> (usize, i128) {
    let mut best = (0, i128::MIN);
    for (position, number) in numbers.enumerate() {
        if number > best.1 {
            best = (position, number);
        }
    }
    best
}

#[cfg(test)]
mod tests {
    use super::*;
    use crate::make::dice::Dice;
    use crate::make::shapes;
    use crate::plane::point;

    #[test]
    fn width_of_the_whole_range() {
        let r = 1_000_000;
        let square = [point(-r, -r), point(r, -r), point(r, r), point(-r, r)];
        let found = width(&square).expect("four corners");
        assert_eq!((found.edge, found.corner, found.w), (0, 2, 2_000_000));
    }

    #[test]
    fn widest_turn_over_the_longest_edge_stays_exact() {
        let r = 1_000_000;
        let half = [point(-r, -r), point(r, -r), point(r, r)];
        let found = width(&half).expect("three corners");
        assert_eq!(
            (found.edge, found.corner, found.t),
            (2, 1, 4_000_000_000_000)
        );
        assert_eq!((found.q, found.w), (8_000_000_000_000, 1_414_213));
    }

    #[test]
    fn box_of_the_half_range_stays_exact() {
        let r = 1_000_000;
        let half = [point(-r, -r), point(r, -r), point(r, r)];
        let found = least_box(&half).expect("three corners");
        let side = 4_000_000_000_000;
        assert_eq!((found.edge, found.t, found.s), (0, side, side));
        let across = box_at(&half, 2);
        assert_eq!((across.t, across.s, across.q), (side, 2 * side, 2 * side));
        assert!(smaller(&found, &across) && !smaller(&across, &found));
    }

    /// No box that lies along a corner difference is less: the perimeter is concave between edges.
    #[test]
    fn no_other_direction_has_a_smaller_box() {
        let mut dice = Dice::new(71);
        for _ in 0..400 {
            let shape = shapes::small(&mut dice);
            let Ok(found) = least_box(&shape) else {
                continue;
            };
            for x in -9..=9 {
                for y in -9..=9 {
                    let along = point(x, y);
                    let spread = |d: Point| {
                        let (_, most) = first_greatest(shape.iter().map(|&c| value(d, c)));
                        let (_, back) = first_greatest(shape.iter().map(|&c| value(-d, c)));
                        most + back
                    };
                    let sides = spread(along) + spread(along.quarter_turned());
                    let least = found.t + found.s;
                    assert!(least * least * dot(along, along) <= sides * sides * found.q);
                }
            }
        }
    }

    #[test]
    fn length_search_does_not_follow_growing_distance() {
        let list = [(0, 0), (1, 0), (60, 1), (29, 51), (17, 40), (4, 23)];
        let shape: Vec<Point> = list.iter().map(|&(x, y)| point(x, y)).collect();
        assert_eq!(length(&shape), (56 * 56 + 22 * 22, 2, 5));
    }
}
