//! Damaged lists: every kind of fault of refusals 1 to 5, near misses, and faults on top of faults.

use super::dice::Dice;
use super::edges::closed_edges;
use super::shapes::{self, vector};
use super::{List, long, numbers};
use crate::plane::{Point, Shape, point};
use crate::refusal::{MOST_COORDINATE, MOST_CORNERS};

/// A list with one fault or two, in 32 bits; some near misses are good shapes still.
pub fn damaged(dice: &mut Dice) -> List {
    let list = match dice.below(20) {
        0..3 => known_lists(dice),
        3..5 => random_list(dice),
        5 => numbers(&winding_twice(dice)),
        6 => numbers(&star(dice)),
        7 => too_many(dice),
        8 => segment_faults(dice),
        9..12 => hurt_shape(dice, shapes::any),
        _ => hurt_shape(dice, shapes::small),
    };
    let in_32_bits = |&n: &i64| n.clamp(i64::from(i32::MIN), i64::from(i32::MAX));
    list.iter().map(in_32_bits).collect()
}

fn hurt_shape(dice: &mut Dice, made: fn(&mut Dice) -> Shape) -> List {
    let shape = made(dice);
    hurt_twice_at_times(dice, numbers(&shape))
}

fn hurt_twice_at_times(dice: &mut Dice, list: List) -> List {
    let once = hurt(dice, list);
    if dice.one_in(4) {
        hurt(dice, once)
    } else {
        once
    }
}

/// One fault put into a list.
pub fn hurt(dice: &mut Dice, list: List) -> List {
    match dice.below(14) {
        0 => odd(dice, list),
        1..3 => out_of_range(dice, list),
        3..6 => nudged(dice, list),
        choice => numbers(&hurt_corners(dice, &list, choice)),
    }
}

fn hurt_corners(dice: &mut Dice, list: &[i64], choice: usize) -> Vec<Point> {
    let mut corners: Vec<Point> = list.chunks_exact(2).map(|c| point(c[0], c[1])).collect();
    let count = corners.len();
    if count == 0 {
        return corners;
    }
    let (at, other) = (dice.below(count), dice.below(count));
    match choice {
        6 => corners.swap(at, other),
        7 => corners.insert(at, corners[at]),
        8 => corners.insert(at, corners[other]),
        9 => corners = in_line(&corners, at),
        10 => corners.reverse(),
        11 => corners[1..].reverse(),
        12 => corners.rotate_left(at),
        _ if count <= MOST_CORNERS => corners.extend_from_within(..),
        _ => {}
    }
    corners
}

/// The shape doubled, with one more corner in the middle of an edge.
fn in_line(corners: &[Point], at: usize) -> Vec<Point> {
    let (a, b) = crate::plane::edge_ends(corners, at);
    let mut doubled = shapes::scaled(corners, 2);
    doubled.insert(at + 1, a + b);
    doubled
}

fn odd(dice: &mut Dice, mut list: List) -> List {
    if dice.one_in(2) {
        list.pop();
    } else {
        list.push(dice.between(-9, 9));
    }
    list
}

fn out_of_range(dice: &mut Dice, mut list: List) -> List {
    let (low, high) = (i64::from(i32::MIN), i64::from(i32::MAX));
    let outside = [
        MOST_COORDINATE + 1,
        -MOST_COORDINATE - 1,
        low,
        low + 1,
        high,
        1 << 20,
        -(1 << 20),
    ];
    let ends = [MOST_COORDINATE, -MOST_COORDINATE];
    let at = dice.below(list.len());
    if let Some(number) = list.get_mut(at) {
        *number = if dice.one_in(5) {
            dice.pick(&ends)
        } else {
            dice.pick(&outside)
        };
    }
    list
}

/// One number changed by a little: a dent, a corner in line, or a good shape still.
fn nudged(dice: &mut Dice, mut list: List) -> List {
    let at = dice.below(list.len());
    if let Some(number) = list.get_mut(at) {
        *number += dice.pick(&[-3, -2, -1, 1, 2, 3]);
    }
    list
}

/// Lists that catch a judge who tests too little.
fn known_lists(dice: &mut Dice) -> List {
    let known: [&[i64]; 8] = [
        &[],
        &[0, 0, 5, 4, -1, 4, 4, 0, 2, 6],
        &[0, 0, 2, 0, 1, 2, -4, 1, -3, -4, 4, -4, 5, 3, -2, 4],
        &[0, 0, 1, 0, 2, 0],
        &[0, 0, 2, 0, 1, 0],
        &[0, 0, 0, 0, 0, 0],
        &[0, 0, 4, 0, 0, 0, 0, 4],
        &[0, 0, 4, 0, 4, 4, 0, 4, 0, 0],
    ];
    let factor = dice.pick(&[1, 1, 3, 1000]);
    let by = dice.between(-5, 5);
    let moved = |n: &i64| n * factor + by;
    dice.pick(&known).iter().map(moved).collect()
}

/// Numbers without any order, few and small or of any size.
fn random_list(dice: &mut Dice) -> List {
    let size = dice.pick(&[
        1,
        2,
        3,
        8,
        MOST_COORDINATE,
        MOST_COORDINATE + 2,
        i64::from(i32::MAX),
    ]);
    let count = 2 * dice.between(1, 6) + i64::from(dice.one_in(9));
    (0..count).map(|_| dice.between(-size, size)).collect()
}

/// Edges in order of angle, walked in two rounds: left turns everywhere, but twice about.
pub fn winding_twice(dice: &mut Dice) -> Vec<Point> {
    let steps: Vec<Point> = (0..dice.between(6, 24)).map(|_| vector(dice, 9)).collect();
    let edges = closed_edges(&steps);
    let rounds = edges
        .iter()
        .step_by(2)
        .chain(edges.iter().skip(1).step_by(2));
    let walk = |at: &mut Point, edge: &Point| {
        *at = *at + *edge;
        Some(*at)
    };
    rounds.scan(point(0, 0), walk).collect()
}

/// Every second or third corner of a shape with an odd count.
pub fn star(dice: &mut Dice) -> Vec<Point> {
    let count = dice.pick(&[5, 7, 9, 11, 13]);
    let shape = long::of_corners(dice, count);
    let step = dice.pick(&[2, 2, 3]);
    (0..count).map(|i| shape[i * step % count]).collect()
}

/// More corners than a shape may have, good or not otherwise, at times an odd count of numbers.
fn too_many(dice: &mut Dice) -> List {
    let count = MOST_CORNERS + dice.pick(&[1, 1, 2, 88]);
    let mut list = match dice.below(3) {
        0 => numbers(&long::of_corners(dice, count)),
        1 => vec![dice.between(-2, 2) * MOST_COORDINATE; 2 * count],
        _ => hurt_twice_at_times(dice, vec![7; 2 * MOST_CORNERS + 2]),
    };
    if dice.one_in(5) {
        list.push(0);
    }
    list
}

/// Two corners: equal, the wrong way round, or out of range.
fn segment_faults(dice: &mut Dice) -> List {
    let a = vector(dice, 2);
    let b = a + vector(dice, 1);
    let list = numbers(&[a, b]);
    if dice.one_in(4) {
        out_of_range(dice, list)
    } else {
        list
    }
}
