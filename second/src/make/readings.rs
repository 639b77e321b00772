//! Readings of the tablet: doubles of every sort, by their bits, and most of them near where an
//! answer changes.

use super::dice::Dice;

/// The text of both readings of a corner.
pub fn corner(dice: &mut Dice) -> Vec<String> {
    (0..2).map(|_| reading(dice)).collect()
}

fn reading(dice: &mut Dice) -> String {
    let (unit, scale) = dice.pick(&[("mm", 1.0), ("e8", 8.0)]);
    let bits = bits(dice, scale);
    if dice.one_in(8) {
        format!("{unit} 0x{bits:016X}")
    } else {
        format!("{unit} 0x{bits:016x}")
    }
}

/// One reading in three is a whole number of millimetres in range, so that y is often judged.
fn bits(dice: &mut Dice, scale: f64) -> u64 {
    let sign = (dice.below(2) as u64) << 63;
    let (near_end, anywhere) = (power(dice, 50, 56), power(dice, -1074, 1023));
    let whole = dice.between(0, 1_000_000) as f64 * scale;
    sign ^ match dice.below(24) {
        0..8 => whole.to_bits(),
        8 => word(dice) >> 1,
        9 => dice.below(1 << 52) as u64,
        10 => dice.below(6) as u64,
        11 => 0x7FF << 52,
        12 => 0x7FF << 52 | word(dice) >> 12,
        13 => (whole + scale * dice.below(16) as f64 / 16.0).to_bits(),
        14 => beside(dice, whole),
        15 => beside(dice, 1_000_000.0 * scale),
        16 => beside(dice, 1_000_001.0 * scale),
        17 => ((999_990 + dice.below(20)) as f64 * scale + dice.below(8) as f64).to_bits(),
        18 => beside(dice, scale),
        19 => (dice.between(0, 8_000_020) as f64).to_bits(),
        20 => (dice.between(0, 8_000_020) as f64 / 8.0).to_bits(),
        21 => beside(dice, near_end),
        22 => beside(dice, anywhere),
        _ => (dice.between(0, 1 << 53) as f64 / power(dice, 0, 60)).to_bits(),
    }
}

/// The double, or one of those next to it, one unit in the last place either way.
fn beside(dice: &mut Dice, double: f64) -> u64 {
    (double.to_bits() + dice.below(3) as u64).saturating_sub(1)
}

fn power(dice: &mut Dice, low: i64, high: i64) -> f64 {
    2f64.powi(dice.between(low, high) as i32)
}

fn word(dice: &mut Dice) -> u64 {
    (dice.below(1 << 32) as u64) << 32 | dice.below(1 << 32) as u64
}
