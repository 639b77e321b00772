//! Rings as people draw them: in either sense, from any corner, closed or open, with repeats and with points
//! in line; and rings that turn in, cross themselves, go back or go round again.

use super::dice::Dice;
use super::shapes::{self, scaled, vector};
use super::{List, damage, long, numbers};
use crate::judge::in_range;
use crate::plane::{Point, Shape, edge_ends, point};
use crate::refusal::{MOST_COORDINATE, MOST_POINTS};

/// The list of a ring.
pub fn list(dice: &mut Dice) -> List {
    match dice.below(40) {
        0..2 => damage::damaged(dice),
        2..4 => {
            let ring = numbers(&drawn(dice, shapes::small));
            damage::hurt(dice, ring)
        }
        4 => about_the_limit(dice),
        5 => numbers(&damage::winding_twice(dice)),
        6 => numbers(&damage::star(dice)),
        7..16 => numbers(&any_points(dice)),
        16..19 => numbers(&in_one_line(dice)),
        19..21 => numbers(&drawn(dice, shapes::any)),
        21..31 => numbers(&drawn(dice, shapes::small)),
        _ => numbers(&bent(dice)),
    }
}

/// A shape's corners as a ring of the same shape.
fn drawn(dice: &mut Dice, made: fn(&mut Dice) -> Shape) -> Vec<Point> {
    let shape = made(dice);
    let parts = dice.pick(&[1, 1, 2, 3, 4]);
    let large = scaled(&shape, parts);
    let mut ring = if large.iter().all(in_range) {
        with_points_in_line(dice, &large, parts)
    } else {
        shape
    };
    for _ in 0..dice.pick(&[0, 0, 1, 3]) {
        let at = dice.below(ring.len());
        ring.insert(at, ring[at]);
    }
    begun_anywhere(dice, ring)
}

/// The ring from any of its points, in either sense, closed at times.
fn begun_anywhere(dice: &mut Dice, mut ring: Vec<Point>) -> Vec<Point> {
    let start = dice.below(ring.len());
    ring.rotate_left(start);
    if dice.one_in(2) {
        ring.reverse();
    }
    if dice.one_in(3) {
        ring.push(ring[0]);
    }
    ring
}

/// Some of the whole points that part each edge, which is a whole number of times as long as it was.
fn with_points_in_line(dice: &mut Dice, shape: &[Point], parts: i64) -> Vec<Point> {
    let mut ring = Vec::new();
    for edge in 0..shape.len() {
        let (start, end) = edge_ends(shape, edge);
        let step = point((end.x - start.x) / parts, (end.y - start.y) / parts);
        ring.push(start);
        for part in 1..parts {
            if dice.one_in(3) {
                ring.push(start + step * part);
            }
        }
    }
    ring
}

/// A ring with one fault: a point inside, two exchanged, a way back and forth, or some of it again.
fn bent(dice: &mut Dice) -> Vec<Point> {
    let mut ring = drawn(dice, shapes::small);
    let count = ring.len();
    let (at, other) = (dice.below(count), dice.below(count));
    match dice.below(8) {
        0..2 => {
            let (p, q) = (ring[at], ring[other]);
            ring.insert(dice.below(count), point((p.x + q.x) / 2, (p.y + q.y) / 2));
        }
        2 => ring.swap(at, other),
        3 => ring[at] = ring[at] + vector(dice, 2),
        4 => {
            let next = ring[(at + 1) % count];
            ring.splice(at..at, [ring[at], next]);
        }
        5 => ring.extend_from_within(..=at),
        6 => ring.insert(at, ring[other]),
        _ => {
            ring.extend_from_within(..);
            ring.rotate_left(at);
        }
    }
    ring
}

/// A few points without any order: some are the corners of a shape all the same.
fn any_points(dice: &mut Dice) -> Vec<Point> {
    let size = dice.pick(&[1, 1, 2, 3, 9, MOST_COORDINATE]);
    let count = dice.between(1, 7);
    let mut ring: Vec<Point> = (0..count).map(|_| vector(dice, size)).collect();
    if dice.one_in(4) {
        ring.push(ring[0]);
    }
    ring
}

/// To one end of a line and back, or back and forth.
fn in_one_line(dice: &mut Dice) -> Vec<Point> {
    let (from, step) = (vector(dice, 5), vector(dice, 2));
    let count = dice.between(1, 8);
    let mut places: Vec<i64> = (0..count).map(|_| dice.between(-3, 3)).collect();
    if dice.one_in(2) {
        let turn = dice.below(places.len() + 1);
        places[..turn].sort_unstable();
        places[turn..].sort_unstable_by(|a, b| b.cmp(a));
    }
    let ring = places.iter().map(|&place| from + step * place).collect();
    begun_anywhere(dice, ring)
}

/// As many points as a ring may have, some fewer or some more, open and closed.
fn about_the_limit(dice: &mut Dice) -> List {
    let count = MOST_POINTS - 1 + dice.below(4);
    let ring = match dice.below(3) {
        0 => vec![vector(dice, 3); count],
        1 => (0..count).map(|_| vector(dice, 9)).collect(),
        _ => long::of_corners(dice, count),
    };
    numbers(&begun_anywhere(dice, ring))
}
