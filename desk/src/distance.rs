//! Distances in words.
use std::fmt;

/// A distance in whole millimetres, and whether it is rounded down.
#[derive(Clone, Copy, Debug, PartialEq, Eq)]
pub struct Distance {
    /// The millimetres.
    pub millimetres: u64,
    /// Whether the distance is exactly so long.
    pub exact: bool,
}

impl Distance {
    /// Returns the distance whose square is given.
    ///
    /// ```
    /// use desk::distance::Distance;
    ///
    /// assert_eq!(Distance::of_square(25).to_string(), "5 mm");
    /// assert_eq!(Distance::of_square(26).to_string(), "5 mm (rounded down)");
    /// ```
    #[must_use]
    pub fn of_square(squared: u64) -> Distance {
        let millimetres = squared.isqrt();
        Distance {
            millimetres,
            exact: u128::from(millimetres).pow(2) == squared.into(),
        }
    }

    /// Returns the distance t/√q, which is so long rounded down.
    ///
    /// ```
    /// use desk::distance::Distance;
    ///
    /// assert_eq!(Distance::of_turn(12, 25, 2).to_string(), "2 mm (rounded down)");
    /// assert_eq!(Distance::of_turn(16_000, 25, 3200).to_string(), "3.2 m");
    /// ```
    #[must_use]
    pub fn of_turn(turn: u64, squared: u64, rounded: u64) -> Distance {
        // t·t is below 2^87, and w·w·q is at most t·t.
        let wide = |number: u64| u128::from(number);
        Distance {
            millimetres: rounded,
            exact: wide(turn).pow(2) == wide(rounded).pow(2) * wide(squared),
        }
    }

    /// Returns the distance t/√q.
    ///
    /// ```
    /// use desk::distance::Distance;
    ///
    /// assert_eq!(Distance::of_side(16_000, 25).to_string(), "3.2 m");
    /// assert_eq!(Distance::of_side(10, 10).to_string(), "3 mm (rounded down)");
    /// ```
    #[must_use]
    pub fn of_side(turn: u64, squared: u64) -> Distance {
        // t·t is below 2^88, and the root of a whole quotient is that of the fraction, both rounded down.
        let square = u128::from(turn).pow(2).checked_div(squared.into());
        let rounded = square.unwrap_or(0).isqrt();
        Distance::of_turn(turn, squared, rounded.try_into().unwrap_or(u64::MAX))
    }

    /// Returns the length of a fraction n/d, in lowest terms, of a way, which is so long rounded down.
    ///
    /// ```
    /// use desk::distance::Distance;
    ///
    /// assert_eq!(Distance::of_part([3, 5], 25, 3).to_string(), "3 mm");
    /// assert_eq!(Distance::of_part([1, 2], 25, 2).to_string(), "2 mm (rounded down)");
    /// ```
    #[must_use]
    pub fn of_part([n, d]: [u64; 2], squared: u64, rounded: u64) -> Distance {
        // n/d of a root is whole only if d·d divides the square, as n and d have no common divisor. n is at most d.
        let [n, d, squared, whole] = [n, d, squared, rounded].map(u128::from);
        let times = squared.checked_div(d * d).unwrap_or(0);
        Distance {
            millimetres: rounded,
            exact: times * d * d == squared && n * n * times == whole * whole,
        }
    }
}

/// Millimetres below a metre, metres from there on, always exactly.
impl fmt::Display for Distance {
    fn fmt(&self, f: &mut fmt::Formatter<'_>) -> fmt::Result {
        match self.millimetres {
            below @ 0..1000 => write!(f, "{below} mm")?,
            from => write!(f, "{} m", metres(from))?,
        }
        if self.exact {
            return Ok(());
        }
        f.write_str(" (rounded down)")
    }
}

/// Metres with the decimals that they need.
fn metres(millimetres: u64) -> String {
    let decimals = format!("{}.{:03}", millimetres / 1000, millimetres % 1000);
    decimals
        .trim_end_matches('0')
        .trim_end_matches('.')
        .to_string()
}
