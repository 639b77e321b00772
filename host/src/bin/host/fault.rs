//! Why a line is not answered.
use cocklesway::{Refusal, Which};
use std::fmt;

/// What is said in place of an answer.
#[derive(Clone, Copy, Debug, PartialEq, Eq)]
pub enum Fault {
    Unreadable(Unreadable),
    Refused(Refusal),
}

/// Why a line is no question.
#[derive(Clone, Copy, Debug, PartialEq, Eq)]
pub enum Unreadable {
    LineTooLong,
    UnknownWord,
    MissingField,
    TooManyFields,
    NotANumber,
    TooManyNumbers,
    WrongCount,
    NotACount,
    NotAReading,
    NotBytes,
    NotAName,
    NotAWalk,
    NotACall,
    NotAFloor,
}

impl From<Unreadable> for Fault {
    fn from(why: Unreadable) -> Fault {
        Fault::Unreadable(why)
    }
}

impl From<Refusal> for Fault {
    fn from(refusal: Refusal) -> Fault {
        Fault::Refused(refusal)
    }
}

impl fmt::Display for Fault {
    fn fmt(&self, f: &mut fmt::Formatter<'_>) -> fmt::Result {
        match self {
            Fault::Unreadable(why) => write!(f, "unreadable: {why}"),
            Fault::Refused(refusal) => fmt_refusal(f, *refusal),
        }
    }
}

/// Writes `no`, the number, and what the refusal carries.
fn fmt_refusal(f: &mut fmt::Formatter<'_>, refusal: Refusal) -> fmt::Result {
    write!(f, "no {}", refusal.number())?;
    if let Some(shape) = refusal.shape() {
        let shape = match shape {
            Which::First => 1,
            Which::Second => 2,
            Which::Third => 3,
            _ => 4,
        };
        write!(f, " shape {shape}")?;
    }
    match refusal {
        Refusal::Side { edge, corner, .. } => write!(f, " edge {edge} corner {corner}"),
        Refusal::NotConvex { before, corner } => write!(f, " edge {before} corner {corner}"),
        Refusal::Damaged { place } => write!(f, " place {place}"),
        Refusal::NotFinite { axis } | Refusal::NotWhole { axis } | Refusal::FarReading { axis } => {
            write!(f, " part {axis}")
        }
        _ => Ok(()),
    }
}

impl fmt::Display for Unreadable {
    fn fmt(&self, f: &mut fmt::Formatter<'_>) -> fmt::Result {
        f.write_str(match self {
            Unreadable::LineTooLong => "line too long",
            Unreadable::UnknownWord => "unknown word",
            Unreadable::MissingField => "missing field",
            Unreadable::TooManyFields => "too many fields",
            Unreadable::NotANumber => "not a number of 32 bits",
            Unreadable::TooManyNumbers => "too many numbers",
            Unreadable::WrongCount => "wrong count of numbers",
            Unreadable::NotACount => "not a count",
            Unreadable::NotAReading => "not a reading",
            Unreadable::NotBytes => "not bytes",
            Unreadable::NotAName => "not a name",
            Unreadable::NotAWalk => "not a walk",
            Unreadable::NotACall => "not a call",
            Unreadable::NotAFloor => "not a floor",
        })
    }
}
