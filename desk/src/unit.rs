//! Units of length, and decimals read exactly as whole millimetres. No floating point is used: digits are moved.
use std::fmt;

/// A unit of length.
#[derive(Clone, Copy, Debug, Default, PartialEq, Eq)]
pub enum Unit {
    /// Millimetres.
    #[default]
    Millimetre,
    /// Centimetres.
    Centimetre,
    /// Metres.
    Metre,
}

/// Why a word is no whole number of millimetres.
#[derive(Clone, Copy, Debug, PartialEq, Eq)]
pub enum Inexact {
    /// It is no decimal number.
    NotANumber,
    /// Its exact value in millimetres is not whole.
    NotWhole,
    /// It is not in 32 bits.
    Large,
}

/// The most digits that an exponent moves the point by.
const MOST_MOVED: u32 = 400;

impl Unit {
    /// Returns the unit that is written so.
    #[must_use]
    pub fn read(text: &str) -> Option<Unit> {
        match text {
            "mm" => Some(Unit::Millimetre),
            "cm" => Some(Unit::Centimetre),
            "m" => Some(Unit::Metre),
            _ => None,
        }
    }

    /// How many digits the point is moved to get millimetres.
    fn digits(self) -> usize {
        match self {
            Unit::Millimetre => 0,
            Unit::Centimetre => 1,
            Unit::Metre => 3,
        }
    }

    /// Reads a decimal number of this unit: a minus or none, digits, and a point with digits after it or none.
    ///
    /// ```
    /// use desk::unit::{Inexact, Unit};
    ///
    /// assert_eq!(Unit::Metre.millimetres("-1.25"), Ok(-1250));
    /// assert_eq!(Unit::Metre.millimetres("3"), Ok(3000));
    /// assert_eq!(Unit::Centimetre.millimetres("0.10"), Ok(1));
    /// assert_eq!(Unit::Metre.millimetres("1.0005"), Err(Inexact::NotWhole));
    /// assert_eq!(Unit::Millimetre.millimetres("1e3"), Err(Inexact::NotANumber));
    /// ```
    ///
    /// # Errors
    /// Why it is no whole number of millimetres.
    pub fn millimetres(self, text: &str) -> Result<i32, Inexact> {
        let (sign, digits) = signed(text);
        let (whole, decimals) = split(digits).ok_or(Inexact::NotANumber)?;
        moved(sign, whole, decimals, self.digits())
    }

    /// Reads a number as JSON and WKT write them: with an exponent too.
    ///
    /// ```
    /// use desk::unit::{Inexact, Unit};
    ///
    /// assert_eq!(Unit::Millimetre.millimetres_of_exponent("1.5e3"), Ok(1500));
    /// assert_eq!(Unit::Metre.millimetres_of_exponent("-25E-2"), Ok(-250));
    /// assert_eq!(Unit::Metre.millimetres_of_exponent("1e-4"), Err(Inexact::NotWhole));
    /// assert_eq!(Unit::Metre.millimetres_of_exponent("0e-4000"), Ok(0));
    /// ```
    ///
    /// # Errors
    /// Why it is no whole number of millimetres.
    pub fn millimetres_of_exponent(self, text: &str) -> Result<i32, Inexact> {
        let Some((number, exponent)) = text.split_once(['e', 'E']) else {
            return self.millimetres(text);
        };
        let (sign, digits) = signed(number);
        let (whole, decimals) = split(digits).ok_or(Inexact::NotANumber)?;
        let power = exponent.strip_prefix('+').unwrap_or(exponent);
        let (down, power) = signed(power);
        if power.is_empty() || !is_digits(power) {
            return Err(Inexact::NotANumber);
        }
        if [whole, decimals].iter().all(|part| is_zero(part)) {
            return Ok(0);
        }
        let by = power.parse().ok().filter(|&by: &u32| by <= MOST_MOVED);
        let zeros = "0".repeat(by.ok_or(Inexact::Large)? as usize);
        if down {
            let whole = format!("{zeros}{whole}");
            let at = whole.len() - zeros.len();
            let (whole, more) = whole.split_at(at);
            return moved(sign, whole, &format!("{more}{decimals}"), self.digits());
        }
        moved(
            sign,
            whole,
            &format!("{decimals}{zeros}"),
            self.digits() + zeros.len(),
        )
    }
}

/// Whether there is a minus, and what is after it.
fn signed(text: &str) -> (bool, &str) {
    match text.strip_prefix('-') {
        Some(digits) => (true, digits),
        None => (false, text),
    }
}

fn is_digits(text: &str) -> bool {
    text.bytes().all(|byte| byte.is_ascii_digit())
}

fn is_zero(digits: &str) -> bool {
    digits.bytes().all(|byte| byte == b'0')
}

/// The digits before the point and those after it. Both are needed where there is a point.
fn split(digits: &str) -> Option<(&str, &str)> {
    let (whole, decimals) = match digits.split_once('.') {
        Some((_, "")) => return None,
        Some(both) => both,
        None => (digits, ""),
    };
    let good = !whole.is_empty() && is_digits(whole) && is_digits(decimals);
    good.then_some((whole, decimals))
}

/// The number with its point moved by the given number of digits, if nothing is left after it.
fn moved(minus: bool, whole: &str, decimals: &str, by: usize) -> Result<i32, Inexact> {
    let (kept, rest) = decimals.split_at(by.min(decimals.len()));
    if !is_zero(rest) {
        return Err(Inexact::NotWhole);
    }
    let zeros = "0".repeat(by - kept.len());
    let digits = format!("{whole}{kept}{zeros}");
    let digits = digits.trim_start_matches('0');
    let sign = if minus { "-" } else { "" };
    match digits {
        "" => Ok(0),
        digits => format!("{sign}{digits}")
            .parse()
            .map_err(|_| Inexact::Large),
    }
}

impl fmt::Display for Unit {
    fn fmt(&self, f: &mut fmt::Formatter<'_>) -> fmt::Result {
        f.write_str(match self {
            Unit::Millimetre => "mm",
            Unit::Centimetre => "cm",
            Unit::Metre => "m",
        })
    }
}
