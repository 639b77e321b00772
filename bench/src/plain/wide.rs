//! Products of more than 128 bits.

/// A product of up to 192 bits: what is above the lowest 64, and these.
#[inline(always)]
pub fn product(a: u128, b: u64) -> (u128, u64) {
    let low = u128::from(a as u64) * u128::from(b);
    let high = (a >> 64) * u128::from(b) + (low >> 64);
    (high, low as u64)
}
