//! Compares the answers of plain and proved questions, refusals included, and the whole outputs that they leave.
mod bytes;
mod directions;
mod kinds;
mod logs;
mod parts;
mod questions;
mod room;
mod tablet;
mod tally;
mod written;

use crate::lists::{beside, floors, points, ring, shape, spoilt};
use crate::logs::log;
use crate::random::Random;
use cocklesway::Shape;
use tally::Tally;

/// A list and its floor.
type Lent<'a> = (&'a [i32], u32);

/// The same as the package takes it.
fn on((list, floor): Lent) -> Shape {
    Shape::of_numbers(list, floor)
}

/// Asks questions of made lists until the given number are answered, and returns how many are; or the first answer that
/// differs, or a kind of answer that never came.
pub fn agree(seed: u64, answers: u64) -> Result<u64, String> {
    let mut random = Random::new(seed);
    let mut tally = Tally::default();
    while tally.answers() < answers {
        ask(&mut tally, &mut random)?;
    }
    tally.missing().map_or(Ok(tally.answers()), Err)
}

/// Every question, of two lists, of points, of a log and of readings.
fn ask(tally: &mut Tally, random: &mut Random) -> Result<(), String> {
    let mut a = shape(random);
    let mut b = beside(random, &a);
    match random.below(8) {
        0 => a = spoilt(random, &a),
        1 => b = spoilt(random, &b),
        _ => (),
    }
    let swept = points(random, &a, &b);
    let drawn = ring(random, &a);
    let [f, g] = floors(random);
    let (a, b): (Lent, Lent) = ((&a, f), (&b, g));
    bytes::ask(tally, random, a, b)?;
    questions::ask_one(tally, a)?;
    questions::ask_two(tally, a, b)?;
    questions::ask_two(tally, b, a)?;
    questions::ask_drives(tally, a, b)?;
    questions::ask_drives(tally, b, a)?;
    parts::ask(tally, random, a, b)?;
    for question in written::QUESTIONS {
        written::ask(tally, random, question, a, b)?;
    }
    written::ask(tally, random, written::SWEEP, (&swept, f), b)?;
    written::ask(tally, random, written::RING, (&drawn, f), b)?;
    let log = log(random);
    logs::ask(tally, random, &log, a)?;
    tablet::ask(tally, random)
}
