//! Areas in words.
use std::fmt;

/// Square millimetres in a square metre.
const SQUARE_METRE: u64 = 1_000_000;

/// The area of a shape, as twice its square millimetres.
///
/// ```
/// use desk::extent::Extent;
///
/// assert_eq!(Extent::of_twice(1).to_string(), "0.5 mm²");
/// assert_eq!(Extent::of_twice(19_998).to_string(), "9999 mm²");
/// assert_eq!(Extent::of_twice(3_600_000).to_string(), "1.8 m²");
/// assert_eq!(Extent::of_twice(2_000_001).to_string(), "1.0000005 m²");
/// ```
#[derive(Clone, Copy, Debug, PartialEq, Eq)]
pub struct Extent {
    twice: u64,
}

impl Extent {
    /// Returns the area that is half of so much.
    #[must_use]
    pub fn of_twice(twice: u64) -> Extent {
        Extent { twice }
    }
}

/// Square millimetres below a hundredth of a square metre, square metres from there on, always exactly.
impl fmt::Display for Extent {
    fn fmt(&self, f: &mut fmt::Formatter<'_>) -> fmt::Result {
        let (whole, half) = (self.twice / 2, self.twice % 2);
        if whole < SQUARE_METRE / 100 {
            return write!(f, "{} mm²", trimmed(&format!("{whole}.{}", 5 * half)));
        }
        let (metres, rest) = (whole / SQUARE_METRE, whole % SQUARE_METRE);
        let decimals = format!("{metres}.{rest:06}{}", 5 * half);
        write!(f, "{} m²", trimmed(&decimals))
    }
}

/// Only the decimals that are needed.
fn trimmed(decimals: &str) -> &str {
    decimals.trim_end_matches('0').trim_end_matches('.')
}
