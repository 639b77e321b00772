//! Replies of the archive, taken apart. Every number of 64 bits is read without a panic: one that the archive is
//! proved never to answer is held to the nearest that fits.
use crate::archive::Reply;
use crate::{Refusal, Shape};

impl Reply {
    /// Returns the values of an answer, or the refusal.
    #[inline]
    pub(crate) fn values(self) -> Result<[u64; 9], Refusal> {
        match self.number {
            0 => Ok(self.values),
            number => Err(Refusal::of(number, self.carried)),
        }
    }

    /// Returns the shape that a question has written at the front of its output, or the refusal.
    #[inline]
    pub(crate) fn written(self, out: &[[i32; 2]]) -> Result<Shape<'_>, Refusal> {
        let [count, floor, ..] = self.values()?;
        Ok(Shape::new(front(out, count), narrow(floor)))
    }
}

/// Returns the first `count` corners of an output.
#[inline]
pub(crate) fn front(out: &[[i32; 2]], count: u64) -> &[[i32; 2]] {
    out.get(..position(count)).unwrap_or(out)
}

#[inline]
pub(crate) fn position(value: u64) -> usize {
    usize::try_from(value).unwrap_or(usize::MAX)
}

#[inline]
pub(crate) fn narrow(value: u64) -> u32 {
    u32::try_from(value).unwrap_or(u32::MAX)
}

/// Reads two's complement.
#[inline]
pub(crate) fn coordinate(value: u64) -> i32 {
    let value = value.cast_signed();
    i32::try_from(value).unwrap_or(if value < 0 { i32::MIN } else { i32::MAX })
}
