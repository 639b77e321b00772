//! Products that 128 bits may not hold.

/// The whole product, its high 128 bits first: it may not fit them once.
pub fn product(a: u128, b: u128) -> (u128, u128) {
    let halves = |number: u128| (number >> 64, number & u128::from(u64::MAX));
    let ((a, a_low), (b, b_low)) = (halves(a), halves(b));
    let (carried, low) = halves(a_low * b_low);
    let (first, middle) = halves(a * b_low + carried);
    let (second, middle) = halves(a_low * b + middle);
    (a * b + first + second, middle << 64 | low)
}

#[cfg(test)]
mod tests {
    use super::*;

    #[test]
    fn products_have_all_their_bits() {
        assert_eq!(product(u128::MAX, u128::MAX), (u128::MAX - 1, 1));
        assert_eq!(product(u128::MAX, 2), (1, u128::MAX - 1));
        assert_eq!(product(1 << 64, 1 << 64), (1, 0));
        let (a, b) = (0x1234_5678_9ABC_DEF0_u128, 0xFEDC_BA98_7654_3210_u128);
        assert_eq!(product(a, b), (0, a * b));
        let (high, low) = product(a << 60, b << 60);
        assert_eq!((high, low), ((a * b) >> 8, (a * b) << 120));
    }
}
