//! Why a line is no question, in the words of the answer.

use std::fmt;

#[derive(Clone, Copy, Debug, PartialEq, Eq)]
pub enum Unreadable {
    LineTooLong,
    UnknownWord,
    MissingField,
    TooManyFields,
    NotANumber,
    TooManyNumbers,
    WrongCount,
    NotACount,
    NotAReading,
    NotBytes,
    NotAName,
    NotAWalk,
    NotACall,
    NotAFloor,
}

impl Unreadable {
    /// Whether a field could not be read at all. Such a fault is told before one of a field that
    /// was read but does not hold what it should, wherever the two are.
    pub fn is_in_text(self) -> bool {
        matches!(
            self,
            Unreadable::NotANumber
                | Unreadable::TooManyNumbers
                | Unreadable::NotAReading
                | Unreadable::NotBytes
                | Unreadable::NotACall
                | Unreadable::NotAFloor
        )
    }
}

impl fmt::Display for Unreadable {
    fn fmt(&self, f: &mut fmt::Formatter<'_>) -> fmt::Result {
        let reason = match self {
            Unreadable::LineTooLong => "line too long",
            Unreadable::UnknownWord => "unknown word",
            Unreadable::MissingField => "missing field",
            Unreadable::TooManyFields => "too many fields",
            Unreadable::NotANumber => "not a number of 32 bits",
            Unreadable::TooManyNumbers => "too many numbers",
            Unreadable::WrongCount => "wrong count of numbers",
            Unreadable::NotACount => "not a count",
            Unreadable::NotAReading => "not a reading",
            Unreadable::NotBytes => "not bytes",
            Unreadable::NotAName => "not a name",
            Unreadable::NotAWalk => "not a walk",
            Unreadable::NotACall => "not a call",
            Unreadable::NotAFloor => "not a floor",
        };
        write!(f, "unreadable: {reason}")
    }
}
