//! A corner of two readings (document 02, W4): the bits of a double taken apart, and its exact value
//! in millimetres as m times a power of two.

use crate::refusal::{MOST_COORDINATE, Refusal};

/// A double by its bits, in millimetres or in eighths of one.
#[derive(Clone, Copy, Debug, PartialEq, Eq)]
pub struct Reading {
    pub eighths: bool,
    pub bits: u64,
}

const PARTS: [&str; 2] = ["x", "y"];

/// The whole numbers of both, x wholly before y.
pub fn corner(readings: [Reading; 2]) -> Result<[i64; 2], Refusal> {
    let mut corner = [0; 2];
    for (at, reading) in readings.into_iter().enumerate() {
        corner[at] = whole(reading).map_err(|number| Refusal::of_part(number, PARTS[at]))?;
    }
    Ok(corner)
}

/// The bits of the double that holds a whole number; 0 is plus zero.
pub fn bits(number: i64) -> u64 {
    (number as f64).to_bits()
}

/// The whole number of millimetres, or 17, 18 or 3.
fn whole(reading: Reading) -> Result<i64, u8> {
    let field = (reading.bits >> 52 & 0x7FF) as i32;
    let digits = reading.bits & ((1 << 52) - 1);
    if field == 0x7FF {
        return Err(17);
    }
    let (m, e) = match field {
        0 => (digits, -1074),
        _ => (digits | 1 << 52, field - 1075),
    };
    if m == 0 {
        return Ok(0);
    }
    let zeros = m.trailing_zeros();
    let (odd, power) = (
        m >> zeros,
        e + zeros as i32 - if reading.eighths { 3 } else { 0 },
    );
    if power < 0 {
        return Err(18);
    }
    let size = i64::try_from(odd)
        .ok()
        .and_then(|odd| odd.checked_mul(1 << power.min(62)));
    match size {
        Some(size) if power < 62 && size <= MOST_COORDINATE => {
            Ok(if reading.bits >> 63 == 1 { -size } else { size })
        }
        _ => Err(3),
    }
}

#[cfg(test)]
mod tests {
    use super::*;

    #[test]
    fn readings_come_to_their_whole_numbers() {
        let stated: &[(bool, f64, Result<i64, u8>)] = &[
            (false, -0.0, Ok(0)),
            (true, -16.0, Ok(-2)),
            (false, 1_000_000.0, Ok(1_000_000)),
            (true, -8_000_000.0, Ok(-1_000_000)),
            (false, f64::NAN, Err(17)),
            (true, f64::NEG_INFINITY, Err(17)),
            (true, f64::from_bits(1), Err(18)),
            (true, 4.0, Err(18)),
            (false, 1_000_000.5, Err(18)),
            (true, 8_000_001.0, Err(18)),
            (true, 8_000_008.0, Err(3)),
            (false, 1_000_001.0, Err(3)),
            (false, 9_007_199_254_740_992.0, Err(3)),
            (true, f64::MAX, Err(3)),
        ];
        for &(eighths, double, answer) in stated {
            let bits = double.to_bits();
            assert_eq!(whole(Reading { eighths, bits }), answer, "{double}");
        }
        assert_eq!(bits(0), 0);
    }
}
