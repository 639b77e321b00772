//! Points of sweeps: any order, repeats, points in line, counts at the limit.

use super::dice::Dice;
use super::shapes::vector;
use super::{List, damage, numbers, pairs};
use crate::plane::{Point, point};
use crate::refusal::{MOST_COORDINATE, MOST_POINTS};

/// The list of a sweep; one in ten is damaged.
pub fn list(dice: &mut Dice) -> List {
    match dice.below(30) {
        0 => damage::damaged(dice),
        1..3 => about_the_limit(dice),
        3 => {
            let points = numbers(&few(dice));
            damage::hurt(dice, points)
        }
        _ => numbers(&cloud(dice)),
    }
}

/// Points with repeats and points in line, mixed.
pub fn cloud(dice: &mut Dice) -> Vec<Point> {
    let mut points = match dice.below(10) {
        0..5 => few(dice),
        5..8 => {
            let (a, b) = pairs::any(dice);
            [a, b].concat()
        }
        _ => in_one_line(dice),
    };
    points.truncate(MOST_POINTS / 2);
    for _ in 0..dice.below(4) {
        let (p, q) = (dice.pick(&points), dice.pick(&points));
        points.push(p);
        points.push(point((p.x + q.x) / 2, (p.y + q.y) / 2));
    }
    dice.draw(&points, points.len())
}

/// Up to 40 points of a square, a small one most often.
fn few(dice: &mut Dice) -> Vec<Point> {
    let size = dice.pick(&[1, 2, 3, 9, 100, MOST_COORDINATE]);
    (0..dice.between(1, 40))
        .map(|_| vector(dice, size))
        .collect()
}

/// Points of one line, or one point over and over.
fn in_one_line(dice: &mut Dice) -> Vec<Point> {
    let (from, step) = (vector(dice, 5), vector(dice, 2));
    (0..dice.between(1, 12))
        .map(|_| from + step * dice.between(-4, 4))
        .collect()
}

/// As many points as a sweep may have, some fewer or some more: many of them equal, or all different
/// as a rule.
fn about_the_limit(dice: &mut Dice) -> List {
    let most = MOST_POINTS as i64;
    let count = dice.pick(&[600, most - 1, most, most, most + 1, most + 1, most + 2]);
    let size = dice.pick(&[1, 20, MOST_COORDINATE]);
    let points: Vec<Point> = (0..count).map(|_| vector(dice, size)).collect();
    numbers(&points)
}
