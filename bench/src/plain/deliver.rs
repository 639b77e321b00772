//! Answers of scans, which drop corners again: a buffer for their corners, and refusals 6 and 8.
use super::corner::Corner;
use super::judge::MOST;
use crate::reply::Numbers;
use std::mem::MaybeUninit;

/// Corners of an answer. It is not cleared first: only what was pushed is read.
pub struct Buffer {
    corners: [MaybeUninit<Corner>; 2 * MOST + 2],
    length: usize,
}

impl Buffer {
    /// Nothing yet.
    #[inline(always)]
    pub fn empty() -> Buffer {
        Buffer {
            corners: [const { MaybeUninit::uninit() }; 2 * MOST + 2],
            length: 0,
        }
    }

    /// One corner more.
    ///
    /// # Safety
    /// No more corners may be held at a time than two shapes have together, and two more.
    #[inline(always)]
    pub unsafe fn push(&mut self, corner: Corner) {
        debug_assert!(self.length < self.corners.len());
        // SAFETY: there is room, as the caller promises.
        unsafe { self.corners.get_unchecked_mut(self.length).write(corner) };
        self.length += 1;
    }

    /// One corner less.
    #[inline(always)]
    pub fn pop(&mut self) {
        self.length -= 1;
    }

    /// How many corners it holds.
    #[inline(always)]
    pub fn len(&self) -> usize {
        self.length
    }

    /// The corner that was pushed `steps` corners before the last.
    ///
    /// # Safety
    /// It must hold more than `steps`.
    #[inline(always)]
    pub unsafe fn back(&self, steps: usize) -> Corner {
        debug_assert!(steps < self.length);
        // SAFETY: all below the length were written, and the caller promises that this one is.
        unsafe {
            self.corners
                .get_unchecked(self.length - 1 - steps)
                .assume_init()
        }
    }

    /// The corners.
    #[inline(always)]
    pub fn corners(&self) -> &[Corner] {
        // SAFETY: all below the length were written.
        unsafe { self.corners[..self.length].assume_init_ref() }
    }
}

/// Writes the corners at the front of the output, or refuses 6 or 8. None can be out of range.
#[inline(always)]
pub fn deliver_near(answer: &Buffer, floor: u32, out: &mut [i32]) -> Numbers {
    match checked_near(answer) {
        Ok(numbers) => write(numbers, floor, out),
        Err(refusal) => refusal,
    }
}

/// The numbers of the corners, or refusal 6.
#[inline(always)]
pub fn checked_near(answer: &Buffer) -> Result<&[i32], Numbers> {
    if answer.len() > MOST {
        return Err(Numbers::refused(6));
    }
    Ok(answer.corners().as_flattened())
}

/// Writes the numbers at the front of the output, or refuses 8.
#[inline(always)]
fn write(numbers: &[i32], floor: u32, out: &mut [i32]) -> Numbers {
    match out.get_mut(..numbers.len()) {
        Some(front) => front.copy_from_slice(numbers),
        None => return Numbers::refused(8),
    }
    Numbers::one(numbers.len() as u64 / 2, floor)
}
