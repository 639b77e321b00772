//! Pairs of good shapes that lie in a special way to each other: equal, flush, touching, nested.

use super::dice::Dice;
use super::edges::{edges_of, shape_from_edges};
use super::long;
use super::shapes::{self, moved, scaled, vector};
use crate::hull::hull_of;
use crate::plane::{Point, Shape, point};
use crate::refusal::{MOST_COORDINATE, MOST_CORNERS};

/// Any two shapes, in either order.
pub fn any(dice: &mut Dice) -> (Shape, Shape) {
    let (a, b) = match dice.below(100) {
        0..15 => return (shapes::any(dice), shapes::any(dice)),
        15..35 => neighbours(dice),
        35..38 => equal(dice),
        38..50 => moved_copy(dice),
        50..64 => flush(dice),
        64..74 => nested(dice),
        74..84 => with_spot(dice),
        84..90 => on_one_line(dice),
        90..98 => sharing_directions(dice),
        _ => across_the_range(dice),
    };
    in_either_order(dice, a, b)
}

/// A shape that is equal to its image, or nearly, and another one or itself made larger or smaller.
pub fn about_one_centre(dice: &mut Dice) -> (Shape, Shape) {
    let a = shapes::tied(dice);
    let b = match dice.below(5) {
        0 => a.clone(),
        1 => shapes::mostly_small(dice),
        2 => moved(&a, vector(dice, 2)),
        3 => hull_of(a.iter().map(|&c| -c).collect()),
        _ => {
            let factor = dice.pick(&[2, 3]);
            moved(&scaled(&a, factor), vector(dice, 2))
        }
    };
    in_either_order(dice, a, b)
}

/// The two as they are or exchanged, both moved alike.
pub fn in_either_order(dice: &mut Dice, a: Shape, b: Shape) -> (Shape, Shape) {
    let (a, b) = if dice.one_in(2) { (a, b) } else { (b, a) };
    together(dice, a, b)
}

/// Sums that end just within the range or just past it, or have about as many corners as a shape may.
pub fn for_sum(dice: &mut Dice) -> (Shape, Shape) {
    match dice.below(100) {
        0..15 => at_the_range_end(dice),
        15..17 => {
            let total = long::about_most(dice);
            long::summing_to(dice, total)
        }
        17 => {
            let shared = dice.pick(&[0, 0, 20, 100]);
            let (a, b) = long::sharing(dice, (3 * MOST_CORNERS / 5, 3 * MOST_CORNERS / 5), shared);
            (shapes::settled(dice, &a), shapes::settled(dice, &b))
        }
        18 => longest_with_few(dice),
        _ => any(dice),
    }
}

/// The same, more often of many corners.
pub fn for_large_sum(dice: &mut Dice) -> (Shape, Shape) {
    if !dice.one_in(6) {
        return for_sum(dice);
    }
    let total = long::about_most(dice);
    long::summing_to(dice, total)
}

/// Merges that use every corner of both, with about as many as a shape may have in the worst case.
pub fn for_merge(dice: &mut Dice) -> (Shape, Shape) {
    match dice.below(100) {
        0..8 => {
            let count = dice.between(3, 14) as usize;
            long::dealt(dice, count)
        }
        8..10 => {
            let many = [
                3 * MOST_CORNERS / 2,
                2 * MOST_CORNERS - 24,
                2 * MOST_CORNERS,
            ];
            let count = if dice.one_in(2) {
                long::about_most(dice)
            } else {
                dice.pick(&many)
            };
            long::dealt(dice, count)
        }
        10 => longest_with_few(dice),
        _ => any(dice),
    }
}

/// Both moved by the same vector, if they stay in range.
fn together(dice: &mut Dice, a: Shape, b: Shape) -> (Shape, Shape) {
    let by = shapes::settled(dice, &[point(0, 0)])[0];
    let (moved_a, moved_b) = (moved(&a, by), moved(&b, by));
    let stay = moved_a.iter().chain(&moved_b).all(crate::judge::in_range);
    if stay { (moved_a, moved_b) } else { (a, b) }
}

fn neighbours(dice: &mut Dice) -> (Shape, Shape) {
    let (a, b) = (shapes::small(dice), shapes::small(dice));
    let size = dice.between(0, 9);
    let by = vector(dice, size);
    (a, moved(&b, by))
}

fn equal(dice: &mut Dice) -> (Shape, Shape) {
    let a = shapes::any(dice);
    (a.clone(), a)
}

/// A shape and itself, moved by a little or by the difference of two corners.
fn moved_copy(dice: &mut Dice) -> (Shape, Shape) {
    let a = shapes::small(dice);
    let by = match dice.below(3) {
        0 => vector(dice, 2),
        1 => dice.pick(&a) - dice.pick(&a),
        _ => dice.pick(&a) - dice.pick(&a) + vector(dice, 1),
    };
    let b = moved(&a, by);
    (a, b)
}

/// A shape and its mirror image at a corner or along an edge, sometimes one step off.
fn flush(dice: &mut Dice) -> (Shape, Shape) {
    let a = shapes::mostly_small(dice);
    let at = dice.below(a.len());
    let other = (at + dice.below(2)) % a.len();
    let mut by = a[at] + a[other];
    if dice.one_in(3) {
        by = by + vector(dice, 1);
    }
    let b = moved(&hull_of(a.iter().map(|&c| -c).collect()), by);
    (a, b)
}

/// A shape with one inside it: some of its corners, itself made smaller, sometimes one step off.
fn nested(dice: &mut Dice) -> (Shape, Shape) {
    let b = shapes::small(dice);
    let outer = scaled(&b, 3);
    let mut inner = match dice.below(3) {
        0 => {
            let count = dice.between(1, b.len() as i64) as usize;
            hull_of(dice.draw(&outer, count))
        }
        1 => moved(&b, dice.pick(&b) * 2),
        _ => moved(&b, dice.pick(&b) + dice.pick(&b)),
    };
    if dice.one_in(4) {
        inner = moved(&inner, vector(dice, 1));
    }
    (inner, outer)
}

/// A shape with a point or segment at a corner, on an edge, on an edge's line, or near.
fn with_spot(dice: &mut Dice) -> (Shape, Shape) {
    let size = dice.pick(&[2, 3, 50, 40_000]);
    let a = scaled(&shapes::small(dice), size);
    let mut spots = vec![spot(dice, &a)];
    if dice.one_in(2) {
        spots.push(spot(dice, &a));
    }
    (a, hull_of(spots))
}

/// A corner, a point of an edge or of its line, or one near or across.
pub fn spot(dice: &mut Dice, shape: &[Point]) -> Point {
    let at = dice.below(shape.len());
    let (a, b) = crate::plane::edge_ends(shape, at);
    let between = b - a;
    let half = point(between.x / 2, between.y / 2);
    match dice.below(6) {
        0 => a,
        1 => a + half,
        2 => b + half,
        3 => a + half + vector(dice, 1),
        4 => b + vector(dice, 1),
        _ => a + b - dice.pick(shape),
    }
}

/// Segments and points along one line: disjoint, end to end, overlapping, nested.
fn on_one_line(dice: &mut Dice) -> (Shape, Shape) {
    let step = vector(dice, 3);
    let mut part = || {
        let (from, to) = (dice.between(-3, 3), dice.between(-3, 3));
        hull_of(vec![step * from, step * to])
    };
    let (a, mut b) = (part(), part());
    if dice.one_in(5) {
        b = moved(&b, vector(dice, 1));
    }
    (a, b)
}

/// The second has some of the first's edges, longer or shorter, or turned round.
fn sharing_directions(dice: &mut Dice) -> (Shape, Shape) {
    let a = shapes::mostly_small(dice);
    let edges = edges_of(&a);
    let count = dice.between(1, edges.len().min(12) as i64) as usize;
    let mut chosen = dice.draw(&edges, count);
    if dice.one_in(3) {
        chosen = chosen.iter().map(|&edge| -edge).collect();
    }
    if dice.one_in(2) {
        chosen.push(vector(dice, 3));
    }
    let b = shape_from_edges(&chosen);
    (a, shapes::settled(dice, &b))
}

/// Small shapes at opposite ends of the range.
fn across_the_range(dice: &mut Dice) -> (Shape, Shape) {
    let far = point(
        dice.pick(&[-MOST_COORDINATE, 0, MOST_COORDINATE - 90]),
        MOST_COORDINATE - 90,
    );
    let a = moved(&shapes::small(dice), -far - point(90, 90));
    let b = moved(&shapes::small(dice), far + point(60, 60));
    (a, b)
}

/// Two shapes whose sum ends at the range's end, one before it or one after.
fn at_the_range_end(dice: &mut Dice) -> (Shape, Shape) {
    let a = shapes::any(dice);
    let b = shapes::mostly_small(dice);
    let top = |parts: &[i64]| parts.iter().copied().max().unwrap_or(0);
    let bottom = |parts: &[i64]| parts.iter().copied().min().unwrap_or(0);
    let xs = |s: &[Point]| s.iter().map(|c| c.x).collect::<Vec<i64>>();
    let ys = |s: &[Point]| s.iter().map(|c| c.y).collect::<Vec<i64>>();
    let end = MOST_COORDINATE + dice.between(-1, 1);
    let by = match dice.below(4) {
        0 => point(end - top(&xs(&a)) - top(&xs(&b)), 0),
        1 => point(-end - bottom(&xs(&a)) - bottom(&xs(&b)), 0),
        2 => point(0, end - top(&ys(&a)) - top(&ys(&b))),
        _ => point(0, -end - bottom(&ys(&a)) - bottom(&ys(&b))),
    };
    (a, moved(&b, by))
}

/// As many corners as a shape may have, or a few less, with a point, a segment or a small shape.
fn longest_with_few(dice: &mut Dice) -> (Shape, Shape) {
    let count = MOST_CORNERS - dice.below(4);
    let a = long::of_corners(dice, count);
    let b = match dice.below(4) {
        0 => vec![dice.pick(&a)],
        1 => hull_of(vec![point(0, 0), dice.pick(&edges_of(&a))]),
        2 => vec![a[0] + vector(dice, 400)],
        _ => shapes::small(dice),
    };
    if dice.one_in(2) { (a, b) } else { (b, a) }
}
