//! Distances compared exactly, as fractions.
use cocklesway::Nearest;
use std::cmp::Ordering;

/// A fraction. Its denominator is below 2^64, and not 0.
///
/// ```
/// use desk::fraction::Fraction;
///
/// assert!(Fraction::new(1, 3) < Fraction::new(34, 100));
/// assert!(Fraction::new(2, 6) == Fraction::new(1, 3));
/// ```
#[derive(Clone, Copy, Debug)]
pub struct Fraction {
    above: u128,
    below: u64,
}

impl Fraction {
    /// Returns a fraction. One over 0 is taken for one over 1.
    #[must_use]
    pub fn new(above: u128, below: u64) -> Fraction {
        let below = below.max(1);
        Fraction { above, below }
    }

    /// Returns the square of the distance of two shapes; 0 for shapes that are not apart.
    #[must_use]
    pub fn squared(nearest: Option<Nearest>) -> Fraction {
        match nearest {
            None => Fraction::new(0, 1),
            Some(Nearest::Corners { squared, .. }) => Fraction::new(squared.into(), 1),
            Some(Nearest::CornerEdge(across) | Nearest::EdgeCorner(across)) => {
                Fraction::new(u128::from(across.turn).pow(2), across.squared)
            }
        }
    }
}

/// By the whole parts, then by products of the rests, which are below 2^128.
impl Ord for Fraction {
    fn cmp(&self, other: &Fraction) -> Ordering {
        let [own, others] = [self, other].map(|it| u128::from(it.below));
        let whole = (self.above / own).cmp(&(other.above / others));
        whole.then_with(|| (self.above % own * others).cmp(&(other.above % others * own)))
    }
}

impl PartialOrd for Fraction {
    fn partial_cmp(&self, other: &Fraction) -> Option<Ordering> {
        Some(self.cmp(other))
    }
}

impl PartialEq for Fraction {
    fn eq(&self, other: &Fraction) -> bool {
        self.cmp(other) == Ordering::Equal
    }
}

impl Eq for Fraction {}

/// Returns the distance of two shapes in whole millimetres, rounded down; 0 for shapes that are not apart.
#[must_use]
pub fn rounded(nearest: Option<Nearest>) -> u64 {
    match nearest {
        None => 0,
        Some(Nearest::Corners { rounded, .. }) => rounded,
        Some(Nearest::CornerEdge(across) | Nearest::EdgeCorner(across)) => across.rounded,
    }
}
