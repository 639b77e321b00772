//! Compares readings of the tablet.
use super::tally::Tally;
use crate::plain;
use crate::random::Random;
use crate::reply::Numbers;
use cocklesway::{Reading, tablet};

/// Readings that are close to a limit, either way.
const RARE: [f64; 12] = [
    0.0,
    0.125,
    0.5,
    1_000_000.0,
    1_000_000.5,
    1_000_001.0,
    8_000_000.0,
    8_000_008.0,
    4_503_599_627_370_497.5,
    1e300,
    f64::INFINITY,
    f64::NAN,
];

/// One corner.
pub fn ask(tally: &mut Tally, random: &mut Random) -> Result<(), String> {
    let (x, y) = (reading(random), reading(random));
    let by_proof = Numbers::of(tablet(x, y));
    tally.add("tablet", (x, y), plain::tablet(x, y), by_proof)
}

/// Any reading, most often a whole number of millimetres in range.
fn reading(random: &mut Random) -> Reading {
    let number = match random.below(8) {
        0 => RARE[random.below(12) as usize],
        1 => -RARE[random.below(12) as usize],
        2 => f64::from_bits(random.bits()),
        3 => f64::from_bits(random.below(9)),
        4 => random.between(-8_000_100, 8_000_100).into(),
        5 => f64::from(random.between(-8_000_100, 8_000_100)) / 8.0,
        _ => (8 * random.between(-1000, 1000)).into(),
    };
    match random.below(2) {
        0 => Reading::Millimetres(number),
        _ => Reading::Eighths(number),
    }
}
