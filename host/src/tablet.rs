//! Readings of the surveyor's tablet.
use crate::Refusal;
use crate::archive;
use crate::reply::coordinate;

/// A coordinate as the tablet sends it: any double.
///
/// ```
/// use cocklesway::{Reading, tablet};
///
/// assert_eq!(tablet(Reading::Millimetres(3.0), Reading::Eighths(-16.0)), Ok([3, -2]));
/// ```
#[derive(Clone, Copy, Debug, PartialEq)]
pub enum Reading {
    /// In millimetres.
    Millimetres(f64),
    /// In eighths of a millimetre.
    Eighths(f64),
}

/// Returns the corner that two readings are, in whole millimetres. They are taken exactly or not at all. To send it
/// back, convert each number with `f64::from`, which is exact.
///
/// # Errors
/// Refused: 17, 18 or 3, in this order, of x, then of y.
///
/// ```
/// use cocklesway::{Axis, Reading::Millimetres, Refusal, tablet};
///
/// assert_eq!(tablet(Millimetres(-0.0), Millimetres(1e6)), Ok([0, 1_000_000]));
///
/// let refused = |x| tablet(Millimetres(x), Millimetres(0.0)).unwrap_err();
/// assert_eq!(refused(f64::NAN), Refusal::NotFinite { axis: Axis::X });
/// assert_eq!(refused(0.5), Refusal::NotWhole { axis: Axis::X });
/// assert_eq!(refused(1e7), Refusal::FarReading { axis: Axis::X });
/// ```
#[inline]
pub fn tablet(x: Reading, y: Reading) -> Result<[i32; 2], Refusal> {
    let ((x_eighths, x), (y_eighths, y)) = (x.parts(), y.parts());
    let reply = archive::tablet(x_eighths, x, y_eighths, y);
    match (reply.number, reply.values) {
        (0, [x, y, ..]) => Ok([coordinate(x), coordinate(y)]),
        (number, _) => Err(Refusal::of_reading(number, reply.carried)),
    }
}

impl Reading {
    /// Whether it is in eighths, and its number.
    fn parts(self) -> (bool, f64) {
        match self {
            Reading::Millimetres(number) => (false, number),
            Reading::Eighths(number) => (true, number),
        }
    }
}
