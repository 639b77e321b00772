//! Logs: whole records, bad ones, torn ends of every sort, and many last bytes where none belongs.

use super::dice::Dice;
use super::{List, damage, floors, line, long, numbers, shapes, tails};
use crate::answer::answer;
use crate::ask::log_text;
use crate::log::{old_record, record};
use crate::pack::pack;
use crate::plane::{Shape, point};

/// Few, so that they come back; some hold the last byte of a record.
pub const NAMES: [u16; 6] = [7, 0, 0x5A, 0x5A00, 0x5A5A, 0xFFFF];

/// A log, a name, and a room for the shape or none.
pub fn to_read(dice: &mut Dice) -> Vec<String> {
    let log = any(dice);
    let mut fields = vec![written(dice, &log), name_text(dice)];
    let need = super::fields::numbers_of(&answer(line("bookread", &fields).as_bytes()));
    fields.extend(tails::room(dice, need).map(|room| room.to_string()));
    fields
}

/// A log with room at times, a name, a list that is mostly a shape, and how many stores, or none.
pub fn to_add(dice: &mut Dice) -> Vec<String> {
    let list = if dice.one_in(12) {
        damage::damaged(dice)
    } else {
        numbers(&shape(dice))
    };
    let mut log = any(dice);
    let need = 9 + 4 * list.len();
    log.resize(
        log.len() + dice.pick(&[0, need - 1, need, need, need + 9]),
        0,
    );
    let twice = 2 * log.len() as i64;
    let stores = match dice.below(8) {
        0 => None,
        1 => Some(dice.pick(&[0, 1, twice, i64::from(i32::MAX)])),
        2..5 => Some(dice.between(0, twice)),
        _ => Some(dice.between(0, need as i64 + 1)),
    };
    let text = written(dice, &log);
    let mut fields = vec![text, name_text(dice)];
    fields.extend(floors::texts(dice, &[list]));
    fields.extend(stores.map(|stores| stores.to_string()));
    fields
}

/// A log, a run that is packed in part, mostly, a name to leave out or nobody's, and how many stores, or none.
pub fn to_pack(dice: &mut Dice) -> Vec<String> {
    let log = any(dice);
    let but = dice.one_in(3).then(|| name(dice));
    let length = dice.below(log.len() + 8);
    let mut run = any_run(dice, length);
    if dice.one_in(2) {
        // A run that is too short stays as it is.
        pack(&log, &mut run, but, dice.below(length + 2)).ok();
    }
    let stores = match dice.below(6) {
        0 => None,
        1 => Some(0),
        2 => Some(length),
        _ => Some(dice.below(length + 2)),
    };
    let but = match but {
        Some(_) if dice.one_in(12) => name_text(dice),
        Some(name) => name.to_string(),
        None => String::new(),
    };
    let mut fields = vec![written(dice, &log), written(dice, &run), but];
    fields.extend(stores.map(|stores| stores.to_string()));
    fields
}

/// A run that is all 0, or holds anything.
pub fn any_run(dice: &mut Dice, length: usize) -> Vec<u8> {
    if dice.one_in(2) {
        return vec![0; length];
    }
    noise(dice, length)
}

/// Some records and a torn end; at times with one byte changed.
pub fn any(dice: &mut Dice) -> Vec<u8> {
    let mut log = Vec::new();
    for _ in 0..dice.below(5) {
        let part = if dice.one_in(16) {
            bad_record(dice)
        } else {
            good_record(dice)
        };
        log.extend(part);
    }
    log.extend(torn_end(dice));
    let at = dice.below(log.len());
    if dice.one_in(8) && at < log.len() {
        log[at] = byte(dice);
    }
    log
}

pub fn name(dice: &mut Dice) -> u16 {
    match dice.below(12) {
        0 => dice.below(1 << 16) as u16,
        1..7 => dice.pick(&NAMES[..2]),
        _ => dice.pick(&NAMES),
    }
}

/// A small shape, mostly with the last byte of records among its coordinates' bytes.
pub fn small_shape(dice: &mut Dice) -> Shape {
    let (dx, dy) = (dice.pick(&[0, 0x5A, 0x5A00]), dice.pick(&[0, 0x5A, 0x5A5A]));
    let shape = match dice.below(6) {
        0..2 => vec![point(0, 0)],
        2 => vec![point(0, 0), point(0x5A, 0)],
        3 => vec![point(0, 0), point(0x5A, 0x5A), point(-0x5A, 0x5A5A)],
        4 => vec![point(0, 0), point(0x5A00, 0), point(0, 1)],
        _ => shapes::small(dice),
    };
    shapes::moved(&shape, point(dx, dy))
}

/// Bytes that end no records or false ones: many are last bytes of records, many are 0.
pub fn noise(dice: &mut Dice, count: usize) -> Vec<u8> {
    (0..count).map(|_| byte(dice)).collect()
}

fn shape(dice: &mut Dice) -> Shape {
    match dice.below(40) {
        0 => shapes::any(dice),
        1 => long::of_corners(dice, 33),
        _ => small_shape(dice),
    }
}

fn good_record(dice: &mut Dice) -> Vec<u8> {
    let list = numbers(&shape(dice));
    record_of(dice, &list)
}

/// Another kind, another length, corners that are no shape; some are good by chance.
pub fn bad_record(dice: &mut Dice) -> Vec<u8> {
    let mut bytes = good_record(dice);
    match dice.below(4) {
        0 => bytes[2] = dice.pick(&[0, 1, 2, 3, 0x5A]),
        1 => bytes[3] = dice.pick(&[1, 0x5A]),
        2 => {
            let list = damage::damaged(dice);
            bytes = record_of(dice, &list);
        }
        _ => {
            let count = dice.between(1, 30) as u8;
            bytes = vec![count, 0];
            bytes.extend(noise(dice, usize::from(count)));
            bytes[1 + usize::from(count)] = 0x5A;
        }
    }
    bytes
}

/// What ends a log: 0, the front of a record, one without its last byte, or nothing of sense.
pub fn torn_end(dice: &mut Dice) -> Vec<u8> {
    let mut bytes = good_record(dice);
    let room = dice.below(40);
    match dice.below(6) {
        0 => bytes.clear(),
        1 => bytes.truncate(dice.below(bytes.len())),
        2 => *bytes.last_mut().expect("a record has bytes") = dice.pick(&[0, 1, 0x5B]),
        3 => bytes.splice(..0, [0, 0]).for_each(drop),
        4 => bytes = noise(dice, room),
        _ => return bytes[..dice.below(bytes.len())].to_vec(),
    }
    bytes.resize(bytes.len() + room, 0);
    bytes
}

/// A record of either kind.
fn record_of(dice: &mut Dice, list: &List) -> Vec<u8> {
    let numbers: Vec<i32> = list.iter().map(|&number| number as i32).collect();
    let name = name(dice);
    if dice.one_in(3) {
        old_record(name, &numbers)
    } else {
        record(name, floors::any(dice), &numbers)
    }
}

fn byte(dice: &mut Dice) -> u8 {
    let any = dice.below(256) as u8;
    dice.pick(&[0x5A, 0x5A, 0, 0, 1, any])
}

/// Some names are just past the ends of their range.
pub fn name_text(dice: &mut Dice) -> String {
    if dice.one_in(24) {
        dice.pick(&["-1", "65536"]).to_string()
    } else {
        name(dice).to_string()
    }
}

/// Some bytes are written in small letters or with spaces, and some with a digit too few.
pub fn written(dice: &mut Dice, log: &[u8]) -> String {
    let mut text = log_text(log);
    match dice.below(24) {
        0 => text.make_ascii_lowercase(),
        1 => return log.iter().map(|byte| format!("{byte:02X} ")).collect(),
        2 => drop(text.pop()),
        _ => {}
    }
    text
}
