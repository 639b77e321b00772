//! The root of an exact fraction, rounded down.

/// turn / √squared rounded down: guessed in floating point, then set right. No turn has more than 43 bits, and no
/// squared length, which is above 0, more than 43.
#[inline(always)]
pub fn rounded(turn: u64, squared: u64) -> u64 {
    let top = turn as u128 * turn as u128;
    let fits = |w: u64| w as u128 * w as u128 * squared as u128 <= top;
    let mut w = (turn as f64 / (squared as f64).sqrt()) as u64;
    while !fits(w) {
        w -= 1;
    }
    while fits(w + 1) {
        w += 1;
    }
    w
}
