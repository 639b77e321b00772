//! Pairs of good shapes that are mostly apart: the second moved away from the first, anywhere or so
//! that edges of both stay on one line or side by side.

use super::dice::Dice;
use super::edges::{along, edges_of, shape_from_edges};
use super::shapes::{self, moved, scaled, vector};
use super::{long, pairs};
use crate::hull::hull_of;
use crate::plane::{Point, Shape, dot, edge_ends, point};
use crate::refusal::{MOST_COORDINATE, MOST_CORNERS};
use crate::separation::gap;

/// Two shapes in either order, most of them apart.
pub fn mostly(dice: &mut Dice) -> (Shape, Shape) {
    let (a, b) = match dice.below(100) {
        0..15 => return pairs::any(dice),
        15..35 => parted(dice),
        35..60 => in_a_row(dice),
        60..75 => side_by_side(dice),
        75..85 => on_one_line(dice),
        85..92 => halves_of_the_range(dice),
        92..98 => dealt(dice),
        _ => long_ones(dice),
    };
    pairs::in_either_order(dice, a, b)
}

/// The same, and pairs whose faces are opposite each other across a gap.
pub fn near(dice: &mut Dice) -> (Shape, Shape) {
    if dice.one_in(2) {
        return mostly(dice);
    }
    let (a, b) = match dice.below(3) {
        0 => wall_and_nose(dice),
        1 => side_by_side(dice),
        _ => parted(dice),
    };
    pairs::in_either_order(dice, a, b)
}

/// A long wall, a segment or a polygon, and a shape whose nose is near it: over the wall, over its
/// end, or beside that.
fn wall_and_nose(dice: &mut Dice) -> (Shape, Shape) {
    let step = along(vector(dice, 3));
    let length = dice.pick(&[2, 5, 40, 3000]);
    let behind = vector(dice, 9);
    let wall = match dice.below(3) {
        0 => shape_from_edges(&[step * length, behind]),
        _ => hull_of(vec![point(0, 0), step * length]),
    };
    let nose = shapes::mostly_small(dice);
    let place = step * dice.pick(&[0, 1, length / 2, length - 1, length, length + 1]);
    let nose = moved(&nose, place - nose[dice.below(nose.len())]);
    let out = step.quarter_turned() * dice.pick(&[-1, 1]);
    let nose = away(dice, &wall, &nose, out);
    (wall, nose)
}

/// Points and segments on one line, with a step or more between them or, at times, none.
pub fn on_one_line(dice: &mut Dice) -> (Shape, Shape) {
    let size = dice.pick(&[1, 3, 3, 40_000]);
    let step = along(vector(dice, size));
    let mut part = |from: i64| hull_of(vec![step * from, step * (from + dice.between(0, 3))]);
    let (a, b) = (part(0), part(0));
    let b = away(dice, &a, &b, step);
    (a, b)
}

/// Any two, the second moved in any direction.
fn parted(dice: &mut Dice) -> (Shape, Shape) {
    let (a, b) = (shapes::mostly_small(dice), shapes::mostly_small(dice));
    let size = dice.between(1, 9);
    let step = along(vector(dice, size));
    let b = away(dice, &a, &b, step);
    (a, b)
}

/// Edges of both on one line, the shapes on one side of it or on both; at times one step off.
fn in_a_row(dice: &mut Dice) -> (Shape, Shape) {
    let (a, b, edge) = flush(dice);
    let step = along(edge) * dice.pick(&[-1, 1]);
    let mut b = away(dice, &a, &b, step);
    if dice.one_in(8) {
        b = moved(&b, vector(dice, 1));
    }
    (a, b)
}

/// Parallel edges face each other: the second moved off the line of both, and along it.
fn side_by_side(dice: &mut Dice) -> (Shape, Shape) {
    let (a, b, edge) = flush(dice);
    let b = moved(&b, along(edge) * dice.between(-2, 2));
    let b = away(dice, &a, &b, -along(edge).quarter_turned());
    (a, b)
}

/// Two shapes and an edge of the first, on whose line an edge of the second begins at its start.
fn flush(dice: &mut Dice) -> (Shape, Shape, Point) {
    let factor = dice.pick(&[1, 1, 1, 2, 1000, 20_000]);
    let a = scaled(&shapes::small(dice), factor);
    let (start, end) = edge_ends(&a, dice.below(a.len()));
    let b = with_edge(dice, &a, end - start);
    let (from, _) = edge_ends(&b, edge_along(&b, end - start));
    let b = moved(&b, start - from);
    (a, b, end - start)
}

/// The shape itself, turned by a half, or another one with such an edge or its opposite.
fn with_edge(dice: &mut Dice, shape: &[Point], edge: Point) -> Shape {
    let size = dice.pick(&[2, 5, 30]);
    match dice.below(5) {
        0 => shape.to_vec(),
        1 => hull_of(shape.iter().map(|&c| -c).collect()),
        2 => shape_from_edges(&[edge]),
        3 => shape_from_edges(&[edge, vector(dice, size)]),
        _ => shape_from_edges(&[-edge, vector(dice, size), vector(dice, size)]),
    }
}

/// The position of an edge in this direction, else in the opposite one, else the first.
fn edge_along(shape: &[Point], direction: Point) -> usize {
    let edges = edges_of(shape);
    let parallel = |&edge: &Point| crate::plane::cross(edge, direction) == 0;
    let same = |edge: &Point| parallel(edge) && dot(*edge, direction) > 0;
    let found = edges.iter().position(same);
    found
        .or_else(|| edges.iter().position(parallel))
        .unwrap_or(0)
}

/// Corners at the left end, at the middle, or between, against such at the right.
fn halves_of_the_range(dice: &mut Dice) -> (Shape, Shape) {
    let middle = dice.between(-1, 1);
    let turned = dice.one_in(2);
    let mut half = |sign: i64| {
        let near = dice.pick(&[1, 1, 2, MOST_COORDINATE / 2]) + sign * middle;
        let xs = [
            near,
            near,
            MOST_COORDINATE,
            dice.between(near, MOST_COORDINATE),
        ];
        let y = dice.between(-MOST_COORDINATE, MOST_COORDINATE);
        let ys = [-MOST_COORDINATE, MOST_COORDINATE, y, 0];
        let count = dice.between(1, 7);
        let corners = (0..count).map(|_| point(sign * dice.pick(&xs), dice.pick(&ys)));
        let placed = |c: Point| if turned { c.quarter_turned() } else { c };
        hull_of(corners.map(placed).collect())
    };
    (half(-1), half(1))
}

/// The corners of one shape dealt out: half of the pairs are apart, the lines lie on its edges.
fn dealt(dice: &mut Dice) -> (Shape, Shape) {
    let count = dice.between(3, 14) as usize;
    long::dealt(dice, count)
}

/// Many corners each, some edges parallel.
fn long_ones(dice: &mut Dice) -> (Shape, Shape) {
    let counts = (
        dice.pick(&[64, 200, MOST_CORNERS]),
        dice.pick(&[65, 300, MOST_CORNERS - 1]),
    );
    let (a, b) = long::sharing(dice, counts, 20);
    let step = along(vector(dice, 9));
    let b = away(dice, &a, &b, step);
    (a, b)
}

/// The second, moved by as many steps as put all of it past the first in the step's direction; a
/// few more at times, or a few fewer, which may leave them touching or overlapping.
pub fn away(dice: &mut Dice, a: &[Point], b: &[Point], step: Point) -> Shape {
    let short = -gap(a, b, step);
    let least = short.div_euclid(dot(step, step)) + 1;
    let steps =
        i64::try_from(least).expect("coordinates are small") + dice.pick(&[0, 0, 0, 1, 3, -1, -2]);
    moved(b, step * steps)
}
