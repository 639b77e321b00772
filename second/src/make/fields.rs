//! The fields of random questions, a function for each row of the table or for several alike.

use super::dice::Dice;
use super::floors::texts;
use super::{
    List, apart, damage, line, numbers, pairs, passages, points, rings, shape_text, shapes, tails,
};
use crate::answer::answer;
use crate::combine::mirror as mirror_of;
use crate::direction;
use crate::plane::{Point, Shape, point};

/// Of the lists to judge one in two is damaged.
pub fn judge(dice: &mut Dice) -> Vec<String> {
    let lists = one_to_judge(dice);
    texts(dice, &lists)
}

pub fn one_to_judge(dice: &mut Dice) -> Vec<List> {
    let shape = shapes::any(dice);
    damaged_at_times(dice, &[shape], 2)
}

pub fn one_shape(dice: &mut Dice) -> Vec<String> {
    let lists = one_list(dice);
    texts(dice, &lists)
}

pub fn two_shapes(dice: &mut Dice) -> Vec<String> {
    let lists = two_lists(dice, pairs::any);
    texts(dice, &lists)
}

pub fn clearance(dice: &mut Dice) -> Vec<String> {
    let lists = two_lists(dice, apart::near);
    texts(dice, &lists)
}

/// Any two shapes, or a shape and one about it, so that distances tie.
pub fn greatest(dice: &mut Dice) -> Vec<String> {
    let lists = match dice.below(3) {
        0 => two_lists(dice, pairs::about_one_centre),
        1 => two_lists(dice, apart::near),
        _ => two_lists(dice, pairs::any),
    };
    texts(dice, &lists)
}

/// Boxes tie where a shape is the same on turning by a quarter, and nearly where one corner is off.
pub fn least_box(dice: &mut Dice) -> Vec<String> {
    let shape = match dice.below(3) {
        0 => shapes::any(dice),
        1 => shapes::small(dice),
        _ => {
            let tied = shapes::tied(dice);
            shapes::settled(dice, &tied)
        }
    };
    let lists = damaged_at_times(dice, &[shape], 16);
    texts(dice, &lists)
}

/// A change is any two shapes, or two that are near.
pub fn excess(dice: &mut Dice) -> Vec<String> {
    let pair = if dice.one_in(3) {
        apart::near
    } else {
        pairs::any
    };
    let lists = two_lists(dice, pair);
    texts(dice, &lists)
}

pub fn tangents(dice: &mut Dice) -> Vec<String> {
    let lists = two_lists(dice, apart::mostly);
    texts(dice, &lists)
}

pub fn passage(dice: &mut Dice) -> Vec<String> {
    let shapes = passages::three(dice);
    let lists = damaged_at_times(dice, &shapes, 24);
    texts(dice, &lists)
}

/// One in three is offered the direction that is found, or its opposite.
pub fn offer(dice: &mut Dice) -> Vec<String> {
    let lists = two_lists(dice, apart::mostly);
    let any = tails::direction(dice, &lists[0]);
    let direction = match dice.below(3) {
        0 => found(&lists).map_or(any, |d| d * dice.pick(&[1, 1, 1, -1])),
        _ => any,
    };
    let mut fields = texts(dice, &lists);
    fields.push(shape_text(&[direction]));
    fields
}

fn found(lists: &[List]) -> Option<Point> {
    let shapes: Vec<Shape> = lists.iter().map(|list| corners(list)).collect();
    direction::found(&shapes[0], &shapes[1]).filter(|&d| tails::fits(d))
}

pub fn find(dice: &mut Dice) -> Vec<String> {
    let lists = two_lists(dice, apart::mostly);
    texts(dice, &lists)
}

pub fn furthest(dice: &mut Dice) -> Vec<String> {
    let lists = one_list(dice);
    let direction = tails::direction(dice, &lists[0]);
    let mut fields = texts(dice, &lists);
    fields.push(shape_text(&[direction]));
    fields
}

pub fn mirror(dice: &mut Dice) -> Vec<String> {
    let lists = one_list(dice);
    with_room(dice, "mirror", lists)
}

pub fn sum(dice: &mut Dice) -> Vec<String> {
    let lists = two_lists(dice, pairs::for_sum);
    with_room(dice, "sum", lists)
}

pub fn merge(dice: &mut Dice) -> Vec<String> {
    let lists = two_lists(dice, pairs::for_merge);
    with_room(dice, "merge", lists)
}

/// The cart is mirrored, so that the differences are the sums of a pair made for them.
pub fn grow(dice: &mut Dice) -> Vec<String> {
    let lists = two_lists(dice, |dice| {
        let (obstacle, image) = pairs::for_sum(dice);
        (obstacle, mirror_of(&image))
    });
    with_room(dice, "grow", lists)
}

pub fn sweep(dice: &mut Dice) -> Vec<String> {
    let list = points::list(dice);
    with_room(dice, "sweep", vec![list])
}

pub fn ring(dice: &mut Dice) -> Vec<String> {
    let list = rings::list(dice);
    with_room(dice, "ring", vec![list])
}

/// The pairs of a list, whatever it is.
fn corners(list: &[i64]) -> Shape {
    list.chunks_exact(2).map(|c| point(c[0], c[1])).collect()
}

fn one_list(dice: &mut Dice) -> Vec<List> {
    let shape = shapes::any(dice);
    damaged_at_times(dice, &[shape], 16)
}

pub fn two_lists(dice: &mut Dice, pair: impl Fn(&mut Dice) -> (Shape, Shape)) -> Vec<List> {
    let (a, b) = pair(dice);
    damaged_at_times(dice, &[a, b], 16)
}

/// One list in `share` is damaged, and at times all are.
pub fn damaged_at_times(dice: &mut Dice, shapes: &[Shape], share: usize) -> Vec<List> {
    let all = dice.one_in(30);
    let mut list = |shape: &Shape| {
        if all || dice.one_in(share) {
            damage::damaged(dice)
        } else {
            numbers(shape)
        }
    };
    shapes.iter().map(&mut list).collect()
}

/// Adds a room for the answer of this question, or leaves it out.
fn with_room(dice: &mut Dice, word: &str, lists: Vec<List>) -> Vec<String> {
    let mut fields = texts(dice, &lists);
    let need = numbers_of(&answer(line(word, &fields).as_bytes()));
    fields.extend(tails::room(dice, need).map(|room| room.to_string()));
    fields
}

/// How many numbers the shape of an answer has, if there is one.
pub fn numbers_of(answer: &str) -> Option<i64> {
    let corners = answer.strip_prefix("ok ")?.split(' ').next()?;
    corners.parse::<i64>().ok().map(|count| 2 * count)
}
