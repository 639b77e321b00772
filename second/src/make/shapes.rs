//! Good shapes of every sort: points, segments, polygons small and large, thin, tied, long.

use super::dice::Dice;
use super::edges::shape_from_edges;
use super::long;
use crate::hull::hull_of;
use crate::plane::{Point, Shape, divisor, point};
use crate::refusal::{MOST_COORDINATE, MOST_CORNERS};

/// Any shape, somewhere in range.
pub fn any(dice: &mut Dice) -> Shape {
    let shape = match dice.below(100) {
        0..8 => vec![point(0, 0)],
        8..17 => segment(dice),
        17..38 => from_lattice(dice),
        38..56 => from_edges(dice),
        56..72 => from_cloud(dice),
        72..80 => at_range_ends(dice),
        80..84 => thin(dice),
        84..95 => tied(dice),
        95..98 => medium(dice),
        _ => many(dice),
    };
    settled(dice, &shape)
}

/// A shape of few corners with coordinates from 0 to about 8.
pub fn small(dice: &mut Dice) -> Shape {
    match dice.below(10) {
        0 => vec![point(dice.between(0, 6), dice.between(0, 6))],
        1..3 => cloud(dice, 2, 5),
        3..7 => from_lattice(dice),
        _ => {
            let (count, size) = (dice.between(3, 9), dice.between(2, 8));
            cloud(dice, count, size)
        }
    }
}

/// Any shape in one case of three, else a small one.
pub fn mostly_small(dice: &mut Dice) -> Shape {
    if dice.one_in(3) {
        any(dice)
    } else {
        small(dice)
    }
}

/// The shape moved within the range: near the middle, anywhere, or to an end of the range.
pub fn settled(dice: &mut Dice, shape: &[Point]) -> Shape {
    let xs: Vec<i64> = shape.iter().map(|c| c.x).collect();
    let ys: Vec<i64> = shape.iter().map(|c| c.y).collect();
    let way = dice.below(8);
    moved(shape, point(shift(dice, &xs, way), shift(dice, &ys, way)))
}

pub fn moved(shape: &[Point], by: Point) -> Shape {
    shape.iter().map(|&c| c + by).collect()
}

pub fn scaled(shape: &[Point], factor: i64) -> Shape {
    shape.iter().map(|&c| c * factor).collect()
}

/// The shape of random points of a square.
pub fn cloud(dice: &mut Dice, count: i64, size: i64) -> Shape {
    let points = (0..count).map(|_| point(dice.between(0, size), dice.between(0, size)));
    hull_of(points.collect())
}

/// A vector with parts up to `size`.
pub fn vector(dice: &mut Dice, size: i64) -> Point {
    point(dice.between(-size, size), dice.between(-size, size))
}

/// How far to move along one axis; 0 if the shape is wider than the range.
fn shift(dice: &mut Dice, parts: &[i64], way: usize) -> i64 {
    let least = parts.iter().copied().min().unwrap_or(0);
    let greatest = parts.iter().copied().max().unwrap_or(0);
    let (low, high) = (-MOST_COORDINATE - least, MOST_COORDINATE - greatest);
    if low > high {
        return 0;
    }
    let wanted = match way {
        0..2 => 0,
        2..6 => dice.between(-9, 9),
        6 => dice.between(low, high),
        _ => dice.pick(&[low, low + 1, high - 1, high]),
    };
    wanted.clamp(low, high)
}

fn segment(dice: &mut Dice) -> Shape {
    let size = dice.pick(&[1, 3, 10, 1000, 2 * MOST_COORDINATE]);
    let end = vector(dice, size);
    hull_of(vec![point(0, 0), end])
}

/// Small whole steps: many parallel edges, edges made of several steps.
fn from_lattice(dice: &mut Dice) -> Shape {
    let size = dice.between(1, 3);
    let steps: Vec<Point> = (0..dice.between(2, 9))
        .map(|_| vector(dice, size))
        .collect();
    shape_from_edges(&steps)
}

fn from_edges(dice: &mut Dice) -> Shape {
    let size = dice.pick(&[6, 20, 300, 10_000, 100_000, 400_000]);
    let edges: Vec<Point> = (0..dice.between(2, 11))
        .map(|_| vector(dice, size))
        .collect();
    shape_from_edges(&edges)
}

fn from_cloud(dice: &mut Dice) -> Shape {
    let (count, size) = (
        dice.between(3, 16),
        dice.pick(&[2, 4, 9, 100, 5000, 2 * MOST_COORDINATE]),
    );
    cloud(dice, count, size)
}

/// Corners whose coordinates are mostly at the ends of the range.
fn at_range_ends(dice: &mut Dice) -> Shape {
    let ends = [
        -MOST_COORDINATE,
        1 - MOST_COORDINATE,
        0,
        MOST_COORDINATE - 1,
        MOST_COORDINATE,
        -MOST_COORDINATE,
        MOST_COORDINATE,
    ];
    let inner = dice.between(-MOST_COORDINATE, MOST_COORDINATE);
    let parts = [&ends[..], &[inner]].concat();
    let points = (0..dice.between(2, 10)).map(|_| point(dice.pick(&parts), dice.pick(&parts)));
    hull_of(points.collect())
}

/// A triangle of turn 1 on a long edge, or a fan of such.
fn thin(dice: &mut Dice) -> Shape {
    let size = dice.pick(&[5, 50, 1000, MOST_COORDINATE]);
    let (x, y) = (dice.between(1, size), dice.between(1, size));
    let common = divisor(x, y);
    let long = point(x / common, y / common);
    let near = partner(long.x, long.y);
    let mut points = vec![point(0, 0), long, near];
    if dice.one_in(2) {
        points.push(long - near);
    }
    hull_of(points)
}

/// A (u, v) with x·v - y·u = 1, for x, y of 0 or more without a common divisor.
fn partner(x: i64, y: i64) -> Point {
    if y == 0 {
        return point(0, 1);
    }
    let below = partner(y, x % y);
    point(-(below.y + (x / y) * below.x), -below.x)
}

/// Equal and nearly equal widths and lengths.
pub fn tied(dice: &mut Dice) -> Shape {
    let size = dice.pick(&[2, 5, 12, 1000, 150_000]);
    let mut edges = match dice.below(5) {
        0 => rectangle(dice, size),
        1 => quarter_turns(dice, size),
        2 => half_turns(dice, size),
        3 => return nearly_tied(dice),
        _ => return cut_square(dice, 4 * size),
    };
    if dice.one_in(3) {
        edges.push(vector(dice, 1));
    }
    shape_from_edges(&edges)
}

fn rectangle(dice: &mut Dice, size: i64) -> Vec<Point> {
    let side = vector(dice, size);
    let other = side.quarter_turned();
    let nearly = dice.pick(&[other, other, other * 2, other + point(1, 0)]);
    vec![side, nearly, -side, -nearly]
}

/// The same on turning by a quarter: every width occurs four times.
fn quarter_turns(dice: &mut Dice, size: i64) -> Vec<Point> {
    let mut edges = Vec::new();
    for _ in 0..dice.between(1, 3) {
        let edge = vector(dice, size);
        let turned = edge.quarter_turned();
        edges.extend([edge, turned, -edge, -turned]);
    }
    edges
}

fn half_turns(dice: &mut Dice, size: i64) -> Vec<Point> {
    let mut edges = Vec::new();
    for _ in 0..dice.between(2, 5) {
        let edge = vector(dice, size);
        edges.extend([edge, -edge]);
    }
    edges
}

/// Edges (p+1, 0), (p, 1), (0, 2p-1) and their opposites: the first two widths, squared, differ by
/// 1/(p·p+1) only. Turned and mirrored, so that either of the two comes first.
pub fn nearly_tied(dice: &mut Dice) -> Shape {
    let p = dice.pick(&[1, 2, 7, 1000, 65_536, 500_000, 999_998, 999_999]);
    let mirrored = dice.pick(&[-1, 1]);
    let turned = dice.one_in(2);
    let mut edges = Vec::new();
    for (x, y) in [(p + 1, 0), (p, 1), (0, 2 * p - 1)] {
        let edge = point(mirrored * x, y);
        let placed = if turned { edge.quarter_turned() } else { edge };
        edges.extend([placed, -placed]);
    }
    shape_from_edges(&edges)
}

/// A square with corners cut off: equal widths over edges of different lengths.
fn cut_square(dice: &mut Dice, side: i64) -> Shape {
    let mut cut = || dice.between(0, side / 2);
    let points = vec![
        point(cut(), 0),
        point(side - cut(), 0),
        point(side, cut()),
        point(side, side - cut()),
        point(side - cut(), side),
        point(cut(), side),
        point(0, side - cut()),
        point(0, cut()),
    ];
    hull_of(points)
}

fn medium(dice: &mut Dice) -> Shape {
    let count = dice.between(13, 60) as usize;
    long::of_corners(dice, count)
}

fn many(dice: &mut Dice) -> Shape {
    let count = dice.pick(&[
        64,
        100,
        127,
        200,
        255,
        256,
        300,
        MOST_CORNERS - 1,
        MOST_CORNERS,
    ]);
    long::of_corners(dice, count)
}
