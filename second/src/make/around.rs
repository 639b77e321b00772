//! Logs of several shapes on one floor and a few on others, for questions over all of them: in rows, so
//! that distances tie; near each other or meeting; some with names that moved, with bad records or ends.

use super::dice::Dice;
use super::edges::{along, shape_from_edges};
use super::fields::{damaged_at_times, numbers_of};
use super::shapes::{self, moved, vector};
use super::{
    List, apart, drives, floors, line, list_text, logs, numbers, pairs, shape_text, tails,
};
use crate::answer::answer;
use crate::combine::{all_sums, mirror};
use crate::hull::hull_of;
use crate::log::{current, old_record, record};
use crate::plane::{Point, Shape, point};

/// One for each shape of a log; some hold the last byte of a record.
const NAMES: [u16; 9] = [7, 0, 1, 2, 300, 0x5A, 0x5A00, 0x5A5A, 0xFFFF];

/// A log, a position, and a room for the shape or none.
pub fn entry(dice: &mut Dice) -> Vec<String> {
    let log = if dice.one_in(3) {
        logs::any(dice)
    } else {
        let (shape, floor) = (scene(dice).1, floors::any(dice));
        held(dice, floor, &shape)
    };
    let most = current(&log).map_or(2, |held| held.len());
    let position = match dice.below(24) {
        0 => -1,
        1 => dice.pick(&[9, 65_536, i64::from(i32::MAX)]),
        _ => dice.between(0, most as i64),
    };
    let mut fields = vec![logs::written(dice, &log), position.to_string()];
    let need = numbers_of(&answer(line("entry", &fields).as_bytes()));
    fields.extend(tails::room(dice, need).map(|room| room.to_string()));
    fields
}

/// A log, a shape, and a name to leave out or nobody's.
pub fn nearest(dice: &mut Dice) -> Vec<String> {
    let (shape, others) = scene(dice);
    let mut fields = asked(dice, shape, &others);
    fields.push(match dice.below(12) {
        0..6 => String::new(),
        6 => logs::name_text(dice),
        _ => dice.pick(&NAMES).to_string(),
    });
    fields
}

/// A log, and a cart's outline.
pub fn gap(dice: &mut Dice) -> Vec<String> {
    let (cart, others) = match dice.below(10) {
        0 => large(dice),
        1..4 => {
            let (cart, others) = scene(dice);
            let cart = if dice.one_in(2) {
                vec![point(0, 0)]
            } else {
                cart
            };
            (cart, others)
        }
        _ => with_room(dice),
    };
    asked(dice, cart, &others)
}

/// A log, a cart's outline, and two places: past one of the shapes or at all of them.
pub fn drive(dice: &mut Dice) -> Vec<String> {
    let (cart, others) = match dice.below(10) {
        0 => large(dice),
        1..5 => scene(dice),
        5..7 => with_room(dice),
        _ => return at_a_front(dice),
    };
    let aim = others.get(dice.below(others.len())).unwrap_or(&cart);
    let (from, to) = drives::drive(dice, &all_sums(aim, &mirror(&cart)));
    driven(dice, cart, &others, [from, to])
}

/// Shapes that all begin at one line, a wide cart and a drive towards the line: it may meet several at once.
fn at_a_front(dice: &mut Dice) -> Vec<String> {
    let turned = dice.one_in(2);
    let placed = |c: Point| if turned { c.quarter_turned() } else { c };
    let count = dice.between(1, 4);
    let mut others: Vec<Shape> = Vec::new();
    for _ in 0..count {
        let shape = shapes::small(dice);
        let by = point(dice.between(-9, 9), dice.pick(&[0, 0, 0, 1]) - shape[0].y);
        others.push(hull_of(moved(&shape, by).into_iter().map(placed).collect()));
    }
    let (width, height) = (dice.pick(&[0, 2, 9, 20]), dice.pick(&[0, 0, 3]));
    let sides = [point(width, 0), point(0, height)].map(placed);
    let cart = shape_from_edges(&[sides[0], sides[1], -sides[0]]);
    let cart = moved(&cart, vector(dice, 3));
    let from = point(dice.between(-20, 9), dice.between(-30, -4));
    let to = from + point(dice.between(-5, 5), dice.between(0, 40));
    driven(dice, cart, &others, [placed(from), placed(to)])
}

fn driven(dice: &mut Dice, cart: Shape, others: &[Shape], way: [Point; 2]) -> Vec<String> {
    let mut fields = asked(dice, cart, others);
    fields.extend(way.map(|place| shape_text(&[place])));
    fields
}

/// The texts of a log of shapes and of a list on their floor, mostly.
fn asked(dice: &mut Dice, shape: Shape, others: &[Shape]) -> Vec<String> {
    let floor = floors::any(dice);
    let log = held(dice, floor, others);
    let list = damaged_at_times(dice, &[shape], 12).remove(0);
    let text = match dice.below(24) {
        0 => floors::texts(dice, &[list]).remove(0),
        _ => floors::before(floor, &list_text(&list)),
    };
    vec![logs::written(dice, &log), text]
}

/// A shape, and some around it.
fn scene(dice: &mut Dice) -> (Shape, Vec<Shape>) {
    let count = dice.pick(&[0, 1, 2, 2, 3, 3, 4, 6]);
    match dice.below(10) {
        0..3 => scattered(dice, count),
        3..6 => beside(dice, count),
        6..9 => in_rows(dice, count),
        _ => {
            let others = (0..count).map(|_| shapes::mostly_small(dice)).collect();
            (shapes::any(dice), others)
        }
    }
}

/// Small ones, anywhere.
fn scattered(dice: &mut Dice, count: usize) -> (Shape, Vec<Shape>) {
    let size = dice.pick(&[4, 9, 20, 20, 300, 900_000]);
    let mut any = || {
        let by = vector(dice, size);
        moved(&shapes::small(dice), by)
    };
    let others = (0..count).map(|_| any()).collect();
    (any(), others)
}

/// One near to it, that one moved, and its image on the other side.
fn beside(dice: &mut Dice, count: usize) -> (Shape, Vec<Shape>) {
    let (shape, near) = apart::near(dice);
    let centre = shape[0] + shape[dice.below(shape.len())];
    let size = dice.pick(&[1, 3, 30]);
    let mut other = || match dice.below(4) {
        0 => near.clone(),
        1 => moved(&mirror(&near), centre),
        _ => moved(&near, vector(dice, size)),
    };
    let others = (0..count).map(|_| other()).collect();
    (shape, others)
}

/// Copies of a shape at equal steps; the asked one is another step off, or any shape between them.
fn in_rows(dice: &mut Dice, count: usize) -> (Shape, Vec<Shape>) {
    let copied = shapes::small(dice);
    let size = dice.pick(&[5, 12, 40, 3000]);
    let step = vector(dice, size);
    let places: Vec<i64> = (0..=count as i64).collect();
    let mut copies: Vec<Shape> = dice
        .draw(&places, places.len())
        .iter()
        .map(|&place| moved(&copied, step * place))
        .collect();
    let shape = copies.pop().expect("one more than the others");
    if dice.one_in(3) {
        return (moved(&shapes::small(dice), shape[0]), copies);
    }
    (shape, copies)
}

/// A cart, and shapes each past the one before it by about as much as the cart needs.
fn with_room(dice: &mut Dice) -> (Shape, Vec<Shape>) {
    let cart = match dice.below(4) {
        0 => shapes::mostly_small(dice),
        _ => shapes::small(dice),
    };
    let image = mirror(&cart);
    let size = dice.between(1, 9);
    let step = along(vector(dice, size));
    let mut others = vec![shapes::mostly_small(dice)];
    for _ in 0..dice.pick(&[1, 1, 2, 3]) {
        let next = shapes::small(dice);
        let last = all_sums(&others[others.len() - 1], &image);
        let grown = all_sums(&next, &image);
        let past = apart::away(dice, &last, &grown, step);
        others.push(moved(&next, past[0] - grown[0]));
    }
    if dice.one_in(2) {
        others.reverse();
    }
    (cart, others)
}

/// A shape that has, grown, about as many corners as a shape may have, or ends about where the range does.
fn large(dice: &mut Dice) -> (Shape, Vec<Shape>) {
    let (shape, image) = pairs::for_large_sum(dice);
    let mut others = vec![shapes::small(dice), shape];
    if dice.one_in(2) {
        others.reverse();
    }
    (mirror(&image), others)
}

/// The log of some shapes on a floor, mostly: with a record of a name again, earlier or later, with a
/// bad record or with a torn end, at times.
fn held(dice: &mut Dice, floor: u16, others: &[Shape]) -> Vec<u8> {
    let names = dice.draw(&NAMES, others.len());
    let mut records: Vec<Vec<u8>> = Vec::new();
    for (shape, &name) in others.iter().zip(&names) {
        let own = if dice.one_in(10) {
            floors::any(dice)
        } else {
            floor
        };
        records.push(bytes(dice, name, own, &numbers(shape)));
    }
    if !names.is_empty() && dice.one_in(2) {
        let shape = &others[dice.below(others.len())];
        let other = dice.pick(&[floor, floor, floor.wrapping_add(1)]);
        let again = bytes(dice, names[0], other, &numbers(shape));
        records.insert(dice.below(records.len() + 1), again);
    }
    if dice.one_in(20) {
        let bad = logs::bad_record(dice);
        records.insert(dice.below(records.len() + 1), bad);
    }
    if dice.one_in(3) {
        records.push(logs::torn_end(dice));
    }
    records.concat()
}

/// A record, of the older kind at times where that says the floor.
fn bytes(dice: &mut Dice, name: u16, floor: u16, list: &List) -> Vec<u8> {
    let numbers: Vec<i32> = list.iter().map(|&number| number as i32).collect();
    if floor == 0 && dice.one_in(2) {
        old_record(name, &numbers)
    } else {
        record(name, floor, &numbers)
    }
}
