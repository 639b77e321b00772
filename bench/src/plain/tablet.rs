//! Readings of the surveyor's tablet: whole millimetres, taken exactly or not at all.
use super::judge::FURTHEST;
use crate::reply::Numbers;
use cocklesway::Reading;

/// From here on every double is whole, either way.
const WHOLE: f64 = 4_503_599_627_370_496.0;

/// Less than this in size, a double may be rounded by a sum.
const SHORT: f64 = 2_147_483_648.0;

/// The sum with this has no digits after the point.
const ONES: f64 = 1.5 * WHOLE;

/// The sum with this is a multiple of 8.
const EIGHTS: f64 = 8.0 * ONES;

/// The corner that two readings are.
#[inline(never)]
pub fn tablet(x: Reading, y: Reading) -> Numbers {
    match (coordinate(x), coordinate(y)) {
        (Ok(x), Ok(y)) => Numbers::all([x as u64, y as u64]),
        (Err(number), _) => Numbers::blamed(number, 1),
        (_, Err(number)) => Numbers::blamed(number, 2),
    }
}

/// A reading in millimetres, or its refusal: 17, 18 or 3. The lowest bits of the sum are the millimetres.
#[inline(always)]
fn coordinate(reading: Reading) -> Result<i32, u64> {
    let (number, added) = match reading {
        Reading::Millimetres(number) => (number, ONES),
        Reading::Eighths(number) => (number, EIGHTS),
    };
    if number.abs() >= SHORT || number.is_nan() {
        return Err(refused(reading));
    }
    let sum = number + added;
    let millimetres = sum.to_bits() as i32;
    if sum - added != number {
        return Err(18);
    }
    if millimetres.abs() > FURTHEST {
        return Err(3);
    }
    Ok(millimetres)
}

/// Why a reading of `SHORT` or more in size, or not finite, is refused.
#[cold]
fn refused(reading: Reading) -> u64 {
    let millimetres = match reading {
        Reading::Millimetres(number) => number,
        Reading::Eighths(number) => number * 0.125,
    };
    let size = millimetres.abs();
    if !size.is_finite() {
        return 17;
    }
    if size < WHOLE && size + WHOLE - WHOLE != size {
        return 18;
    }
    3
}
