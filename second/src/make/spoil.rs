//! Lines that are no questions, of every reason, with the last that is read beside the first that
//! is not. Most have one fault; with two the order of the reasons shows.

use super::dice::Dice;
use super::line;
use crate::text::fields::MOST_NUMBERS;
use crate::text::lines::{MOST_CHARACTERS, is_passed_over};

#[rustfmt::skip]
const WORDS: &[&str] = &[
    "rotate", "Judge", "sums", "x", "", " # judge", "sum sum", "judge 0 0", "\u{FEFF}judge", "shape",
];

#[rustfmt::skip]
const NO_NUMBERS: &[&str] = &[
    "2147483648", "-2147483649", "4294967296", "99999999999999999999", "+5", "-", "--5", "5-",
    "1.5", "1e3", "0x10", "5,", "zero", "\u{A0}5", "5\u{C}", "\u{665}", "@", "@2", "@65536", "@-1",
    "2@", "@+2",
];

#[rustfmt::skip]
const NUMBERS: &[&str] = &[
    "-0", "007", "2147483647", "-2147483648", "-00000000000000000001", "@-0", "@0000000000002",
];

#[rustfmt::skip]
const TAILS: &[&str] = &[
    "", "-1", "-2147483648", "-0", "0", "1", "3 4", "-3 4", "3 4 5",
];

/// A question with one fault or two; a few are questions still.
pub fn spoilt(dice: &mut Dice, word: &str, mut fields: Vec<String>) -> String {
    let mut word = word.to_string();
    spoil(dice, &mut word, &mut fields);
    if dice.one_in(3) {
        spoil(dice, &mut word, &mut fields);
    }
    let text = line(&word, &fields);
    if is_passed_over(text.as_bytes()) {
        text + "|"
    } else {
        text
    }
}

fn spoil(dice: &mut Dice, word: &mut String, fields: &mut Vec<String>) {
    match dice.below(40) {
        0..5 => *word = dice.pick(WORDS).to_string(),
        5..9 => drop(fields.pop()),
        9..13 => fields.resize(fields.len() + dice.pick(&[1, 1, 2, 7, 8]), "4".to_string()),
        13..16 => *any_field(dice, fields) = String::new(),
        16..26 => spoil_number(dice, fields),
        26..37 => spoil_tail(dice, fields),
        37..39 => fill_with_numbers(dice, fields),
        _ => stretch(dice, word, fields),
    }
}

/// One of the fields; there is one afterwards.
fn any_field<'a>(dice: &mut Dice, fields: &'a mut Vec<String>) -> &'a mut String {
    if fields.is_empty() {
        fields.push(String::new());
    }
    let at = dice.below(fields.len());
    &mut fields[at]
}

/// One number becomes another word, or one is added.
fn spoil_number(dice: &mut Dice, fields: &mut Vec<String>) {
    let word = if dice.one_in(4) {
        dice.pick(NUMBERS)
    } else {
        dice.pick(NO_NUMBERS)
    };
    let field = any_field(dice, fields);
    let mut words: Vec<&str> = field.split(' ').collect();
    let at = dice.below(words.len() + 1);
    words.splice(at..words.len().min(at + 1), [word]);
    *field = words.join(" ");
}

/// The last field gets a minus, or a number more or less, or holds something else.
fn spoil_tail(dice: &mut Dice, fields: &mut [String]) {
    let Some(tail) = fields.last_mut() else {
        return;
    };
    match dice.below(6) {
        0..2 => tail.insert(0, '-'),
        2 => tail.push_str(" 5"),
        3 => tail.truncate(tail.rfind(' ').unwrap_or(0)),
        _ => *tail = dice.pick(TAILS).to_string(),
    }
}

/// The line holds about as many numbers as it may.
fn fill_with_numbers(dice: &mut Dice, fields: &mut Vec<String>) {
    let held = fields
        .iter()
        .flat_map(|field| field.split_whitespace())
        .filter(|word| !word.starts_with('@'))
        .count();
    let wanted = MOST_NUMBERS + dice.pick(&[0, 0, 1, 1, 2, 900]);
    let more = " 0".repeat(wanted.saturating_sub(held));
    any_field(dice, fields).push_str(&more);
}

/// The line ends with a number about where it may end at the latest, or with spaces beyond.
fn stretch(dice: &mut Dice, word: &str, fields: &mut [String]) {
    let length = line(word, fields).len();
    let wanted = MOST_CHARACTERS + dice.pick(&[0, 0, 1, 1, 2, 5000]);
    let filler = dice
        .pick(&[" ", "\t", "0"])
        .repeat(wanted.saturating_sub(length + 1));
    let end = dice.pick(&["0", "0", " "]);
    if let Some(tail) = fields.last_mut() {
        tail.push_str(&filler);
        tail.push_str(end);
    }
}
