//! Calls of a host: the bytes of lists good and damaged, with bytes too few or too many, floors around
//! the end of their range, and outputs around what the answer needs.

use super::dice::Dice;
use super::fields::two_lists;
use super::{List, fields, logs, pairs};
use crate::host::{self, MOST_FLOOR, Writes};
use crate::plane::Shape;
use crate::refusal::MOST_CORNERS;
use crate::text::fields::MOST_OUTPUT;

pub fn judge(dice: &mut Dice) -> Vec<String> {
    let lists = fields::one_to_judge(dice);
    texts(dice, &lists).0
}

pub fn relation(dice: &mut Dice) -> Vec<String> {
    let lists = two_lists(dice, pairs::any);
    texts(dice, &lists).0
}

pub fn sum(dice: &mut Dice) -> Vec<String> {
    with_output(dice, pairs::for_sum, host::sum)
}

pub fn merge(dice: &mut Dice) -> Vec<String> {
    with_output(dice, pairs::for_merge, host::merge)
}

fn with_output(
    dice: &mut Dice,
    pair: fn(&mut Dice) -> (Shape, Shape),
    call: Writes,
) -> Vec<String> {
    let lists = two_lists(dice, pair);
    let (mut fields, lent) = texts(dice, &lists);
    let mut out = [0; 8 * MOST_CORNERS];
    let told = call(&lent[0].0, lent[0].1, &lent[1].0, lent[1].1, &mut out);
    fields.push(output(dice, 8 * (told >> 16 & 0xFFFF) as usize).to_string());
    fields
}

/// The texts of lists and floors, and what they say.
fn texts(dice: &mut Dice, lists: &[List]) -> (Vec<String>, Vec<(Vec<u8>, u32)>) {
    let floor = floor(dice);
    let differ = dice.one_in(10);
    let mut texts = Vec::new();
    let mut lent = Vec::new();
    for list in lists {
        let bytes = bytes(dice, list);
        let own = if differ { self::floor(dice) } else { floor };
        texts.extend([logs::written(dice, &bytes), own.to_string()]);
        lent.push((bytes, own));
    }
    (texts, lent)
}

/// The bytes of a list; one in eight has some bytes less or more, or another byte.
fn bytes(dice: &mut Dice, list: &[i64]) -> Vec<u8> {
    let numbers = list.iter().map(|&number| number as i32);
    let mut bytes: Vec<u8> = numbers.flat_map(i32::to_le_bytes).collect();
    let (some, at) = (1 + dice.below(8), dice.below(bytes.len()));
    match dice.below(32) {
        0 | 1 => bytes.truncate(bytes.len().saturating_sub(some)),
        2 => bytes.resize(bytes.len() + some, 0),
        3 if at < bytes.len() => bytes[at] = dice.pick(&[0, 1, 0x7F, 0x80, 0xFF]),
        _ => {}
    }
    bytes
}

fn floor(dice: &mut Dice) -> u32 {
    let any = dice.below(1 << 32) as u32;
    let most = MOST_FLOOR;
    let about = [
        most - 1,
        most + 1,
        most + 1,
        most + 2,
        1 << 17,
        1 << 31,
        u32::MAX,
    ];
    match dice.below(16) {
        0 => any & most,
        1 => any,
        2..4 => dice.pick(&about),
        4..9 => 0,
        _ => dice.pick(&[1, 2, 0x100, 0x5A5A, most]),
    }
}

/// About what the answer needs, none, enough for any, or more than any call is lent.
fn output(dice: &mut Dice, need: usize) -> usize {
    match dice.below(20) {
        0..6 => need,
        6..9 => need.saturating_sub(1),
        9 => need.saturating_sub(1 + dice.below(8)),
        10..13 => need + 1 + dice.below(9),
        13..15 => dice.pick(&[0, 1, 7, 8, 9, need / 2, need / 4]),
        15..19 => 8 * MOST_CORNERS,
        _ => dice.pick(&[8 * MOST_CORNERS + 1, MOST_OUTPUT, MOST_OUTPUT + 1]),
    }
}
