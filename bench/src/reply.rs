//! Answers as numbers: those of the plain questions, and those of the package beside them.
mod answers;

use cocklesway::Refusal;

/// The most values of an answer, floor included: those of the four lines that just touch two shapes.
const MOST_VALUES: usize = 9;

/// A refusal: its number, the shape that 1 to 5 blame or the part of a reading, and 4's edge and corner or 15's place
/// as the first values. An answer: 0, 0 and its values, after them the floor. What is not needed is 0; a value below 0
/// is its two's complement.
#[derive(Clone, Copy, Debug, PartialEq, Eq)]
pub struct Numbers {
    pub refusal: u64,
    pub shape: u64,
    pub values: [u64; MOST_VALUES],
}

impl Numbers {
    /// An answer of one value, on a floor.
    #[inline]
    pub fn one(value: u64, floor: impl Into<u64>) -> Numbers {
        Numbers::all([value, floor.into()])
    }

    /// An answer, its floor among the values.
    #[inline]
    pub fn all<const K: usize>(values: [u64; K]) -> Numbers {
        Numbers::new(0, 0, values)
    }

    /// A direction on a floor, or none.
    #[inline]
    pub fn found(direction: Option<[i32; 2]>, floor: impl Into<u64>) -> Numbers {
        match direction {
            Some([u, v]) => Numbers::all([1, u as u64, v as u64, floor.into()]),
            None => Numbers::one(0, floor),
        }
    }

    /// How many corners were written on a floor, or the number of the refusal.
    #[inline]
    pub fn written(count: Result<usize, u64>, floor: impl Into<u64>) -> Numbers {
        match count {
            Ok(count) => Numbers::one(count as u64, floor),
            Err(number) => Numbers::refused(number),
        }
    }

    /// An answer with names before its values. It has at most 7 values.
    #[inline]
    pub fn named<const K: usize>(mut self, names: [u16; K]) -> Numbers {
        self.values.rotate_right(K);
        self.values[..K].copy_from_slice(&names.map(u64::from));
        self
    }

    /// A refusal that blames no shape.
    #[inline]
    pub fn refused(refusal: u64) -> Numbers {
        Numbers::blamed(refusal, 0)
    }

    /// A refusal of one of the shapes.
    #[inline]
    pub fn blamed(refusal: u64, shape: u64) -> Numbers {
        Numbers::new(refusal, shape, [])
    }

    /// Refusal 4 of one of the shapes, with its edge and corner.
    pub fn broken(shape: u64, edge: usize, corner: usize) -> Numbers {
        Numbers::new(4, shape, [edge as u64, corner as u64])
    }

    /// Refusal 15, with the place of the record.
    pub fn damaged(place: usize) -> Numbers {
        Numbers::new(15, 0, [place as u64])
    }

    #[inline]
    fn new<const K: usize>(refusal: u64, shape: u64, front: [u64; K]) -> Numbers {
        let mut values = [0; MOST_VALUES];
        values[..K].copy_from_slice(&front);
        Numbers {
            refusal,
            shape,
            values,
        }
    }

    /// The reply of a call on bytes: a byte, a byte, two bytes and two bytes from the low end, and what is above them.
    pub fn unpacked(reply: u64) -> Numbers {
        let two_bytes = |at: u32| reply >> at & 0xFFFF;
        let values = [two_bytes(16), two_bytes(32), two_bytes(48)];
        Numbers::new(reply & 0xFF, reply >> 8 & 0xFF, values)
    }

    /// The direction that was found.
    pub fn direction(&self) -> Option<[i32; 2]> {
        match (self.refusal, self.values) {
            (0, [1, u, v, ..]) => Some([u as i32, v as i32]),
            _ => None,
        }
    }

    /// An answer of the package.
    pub fn of<T: Into<Numbers>>(answer: Result<T, Refusal>) -> Numbers {
        answer.map_or_else(Numbers::from, T::into)
    }
}
