//! What comes after the shapes: directions with ties, past the limits, and some times their
//! shortest, rooms around the need.

use super::dice::Dice;
use super::edges::{along, edges_of};
use super::shapes::vector;
use crate::plane::{Point, point};
use crate::refusal::{MOST_CORNERS, MOST_DIRECTION};

pub fn direction(dice: &mut Dice, list: &[i64]) -> Point {
    match dice.below(20) {
        0 => point(0, 0),
        1..4 => point(limit_part(dice), limit_part(dice)),
        4..6 => dice.pick(&[point(1, 0), point(0, 1), point(-1, 0), point(0, -1)]),
        sort => {
            let any = match sort {
                6..12 => normal(dice, list),
                12..17 => vector(dice, 3),
                _ => vector(dice, MOST_DIRECTION),
            };
            shortened(dice, any)
        }
    }
}

/// Mostly over the divisor of its parts; else as it is, or some times as long.
fn shortened(dice: &mut Dice, direction: Point) -> Point {
    match dice.below(8) {
        0 if fits(direction * 9) => direction * dice.between(2, 9),
        0..2 => direction,
        _ => along(direction),
    }
}

/// Whether both parts are numbers of 32 bits.
pub fn fits(direction: Point) -> bool {
    i32::try_from(direction.x).is_ok() && i32::try_from(direction.y).is_ok()
}

/// A part at, before or past the limit, or any number of 32 bits.
fn limit_part(dice: &mut Dice) -> i64 {
    let sign = dice.pick(&[-1, 1]);
    match dice.below(12) {
        0 => sign * (MOST_DIRECTION + 1),
        1 => dice.between(i64::from(i32::MIN), i64::from(i32::MAX)),
        2 => dice.pick(&[i64::from(i32::MIN), i64::from(i32::MAX)]),
        3..5 => 0,
        5 => sign * (MOST_DIRECTION - 1),
        _ => sign * MOST_DIRECTION,
    }
}

/// Square to an edge, outward or inward: a tie of two corners, over the end of the list too.
fn normal(dice: &mut Dice, list: &[i64]) -> Point {
    let corners: Vec<Point> = list.chunks_exact(2).map(|c| point(c[0], c[1])).collect();
    if corners.is_empty() {
        return vector(dice, 3);
    }
    let edges = edges_of(&corners);
    let edge = if dice.one_in(3) {
        edges[edges.len() - 1]
    } else {
        dice.pick(&edges)
    };
    let inward = edge.quarter_turned();
    let away = if dice.one_in(6) { inward } else { -inward };
    if fits(away) { away } else { vector(dice, 3) }
}

/// How many numbers the output holds: about what the answer needs, none, enough for any, or more
/// than any answer has.
pub fn room(dice: &mut Dice, need: Option<i64>) -> Option<i64> {
    let most = 2 * MOST_CORNERS as i64;
    let need = need.unwrap_or(dice.between(0, 12));
    match dice.below(20) {
        0..6 => None,
        6..10 => Some(need),
        10..14 => Some((need - 1).max(0)),
        14..16 => Some(need + dice.between(1, 3)),
        16..18 => Some(dice.pick(&[0, 0, 1, 2, need / 2])),
        18 => Some(most),
        _ => Some(dice.pick(&[most + 1, 1 << 16, i64::from(i32::MAX)])),
    }
}
