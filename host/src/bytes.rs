//! Four questions on plain bytes, for a host that has corners so: x and y of each, four bytes to a number, two's
//! complement, the lowest byte first, at any alignment. An output needs eight bytes to a corner.
//!
//! Each call answers one number ([`Packed`]).
//!
//! ```
//! use cocklesway::{Refusal, bytes};
//!
//! let segment: Vec<u8> = bytes::of_corners(&[[0, 0], [2, 0]]).collect();
//! let point: Vec<u8> = bytes::of_corners(&[[1, -1]]).collect();
//! let mut out = [0; 16];
//! let sum = bytes::sum(&segment, 3, &point, 3, &mut out).corners()?;
//! assert_eq!((sum.count, sum.floor), (2, 3));
//! assert!(bytes::corners_of(&out).eq([[1, -1], [3, -1]]));
//! # Ok::<(), Refusal>(())
//! ```
use crate::archive;
use crate::{Corners, Refusal, Relation, Standing};

/// What a call on bytes answers: one number. From its low end:
///
/// | bytes | refused | answered |
/// |---|---|---|
/// | 1 | the refusal: 1 to 8 or 13 | 0 |
/// | 1 | the list that 1 to 5 blame, 1 or 2; else 0 | 0 |
/// | 2 | 4's edge; else 0 | how many corners; of a relation 0 apart, 1 touching, 2 overlapping |
/// | 2 | 4's corner; else 0 | the floor |
/// | 2 | 0 | 0 |
///
/// ```
/// use cocklesway::bytes::{self, Packed};
///
/// assert_eq!(bytes::judge(&[0; 8], 7), Packed::from(0x0007_0001_00_00));
/// assert_eq!(bytes::judge(&[0; 7], 7), Packed::from(0x01_01));
/// ```
#[derive(Clone, Copy, Debug, PartialEq, Eq, Hash)]
#[must_use]
pub struct Packed(u64);

impl Packed {
    /// Returns the number.
    ///
    /// ```
    /// assert_eq!(cocklesway::bytes::judge(&[], 0).number(), 0x01_01);
    /// ```
    #[must_use]
    pub const fn number(self) -> u64 {
        self.0
    }

    /// Returns what [`judge`], [`sum`] or [`merge`] answered.
    ///
    /// # Errors
    /// The refusal.
    ///
    /// ```
    /// assert_eq!(cocklesway::bytes::judge(&[0; 8], 7).corners()?.count, 1);
    /// # Ok::<(), cocklesway::Refusal>(())
    /// ```
    pub fn corners(self) -> Result<Corners, Refusal> {
        let (count, floor) = self.answered()?;
        Ok(Corners {
            count: usize::from(count),
            floor: u32::from(floor),
        })
    }

    /// Returns what [`relation`] answered.
    ///
    /// # Errors
    /// The refusal.
    ///
    /// ```
    /// use cocklesway::{Relation, bytes};
    ///
    /// let (here, there) = ([0; 8], [1, 0, 0, 0, 0, 0, 0, 0]);
    /// let standing = bytes::relation(&here, 7, &there, 7).standing()?;
    /// assert_eq!(standing.relation, Relation::Apart);
    /// # Ok::<(), cocklesway::Refusal>(())
    /// ```
    pub fn standing(self) -> Result<Standing, Refusal> {
        let (relation, floor) = self.answered()?;
        Ok(Standing {
            relation: Relation::of(u64::from(relation)),
            floor: u32::from(floor),
        })
    }

    /// The two fields of an answer, or the refusal.
    fn answered(self) -> Result<(u16, u16), Refusal> {
        let [refusal, shape, a, b, c, d, ..] = self.0.to_le_bytes();
        let (first, second) = (u16::from_le_bytes([a, b]), u16::from_le_bytes([c, d]));
        if refusal == 0 {
            return Ok((first, second));
        }
        let carried = [u64::from(shape), first.into(), second.into()];
        Err(Refusal::of(refusal.into(), carried))
    }
}

impl From<u64> for Packed {
    fn from(number: u64) -> Packed {
        Packed(number)
    }
}

/// Asks how many corners a shape has.
///
/// # Errors
/// Refused: 1 to 5, 13.
///
/// ```
/// use cocklesway::{Refusal, Which, bytes};
///
/// let judged = bytes::judge(&[0; 16], 0).corners();
/// assert_eq!(judged, Err(Refusal::Side { shape: Which::First, edge: 0, corner: 1 }));
/// ```
#[inline]
pub fn judge(list: &[u8], floor: u32) -> Packed {
    Packed(archive::judge_bytes(list, floor))
}

/// Writes the bytes of the shape of all corner-plus-corner points at the front of the output. The rest of the
/// output is kept.
///
/// # Errors
/// Refused, with the output as it was: 1 to 5 of the first list, then of the second, 13, 6, 7, 8.
///
/// ```
/// use cocklesway::{Refusal, bytes};
///
/// let mut out = [7; 9];
/// assert_eq!(bytes::sum(&[0; 8], 1, &[0; 8], 2, &mut out).corners(), Err(Refusal::Floors));
/// assert_eq!(bytes::sum(&[0; 8], 1, &[0; 8], 1, &mut out).corners()?.count, 1);
/// assert_eq!(out, [0, 0, 0, 0, 0, 0, 0, 0, 7]);
/// # Ok::<(), Refusal>(())
/// ```
#[inline]
pub fn sum(a: &[u8], f: u32, b: &[u8], g: u32, out: &mut [u8]) -> Packed {
    Packed(archive::sum_bytes(a, f, b, g, out))
}

/// Writes the bytes of the shape of both corner lists together at the front of the output. The rest of the output
/// is kept.
///
/// # Errors
/// Refused, with the output as it was: 1 to 5 of the first list, then of the second, 13, 6, 8.
///
/// ```
/// use cocklesway::bytes;
///
/// let (here, there) = ([0; 8], [1, 0, 0, 0, 0, 0, 0, 0]);
/// let mut out = [7; 16];
/// assert_eq!(bytes::merge(&here, 1, &there, 1, &mut out).corners()?.count, 2);
/// assert!(bytes::corners_of(&out).eq([[0, 0], [1, 0]]));
/// # Ok::<(), cocklesway::Refusal>(())
/// ```
#[inline]
pub fn merge(a: &[u8], f: u32, b: &[u8], g: u32, out: &mut [u8]) -> Packed {
    Packed(archive::merge_bytes(a, f, b, g, out))
}

/// Asks whether two shapes are apart, touching or overlapping.
///
/// # Errors
/// Refused: 1 to 5 of the first list, then of the second, 13.
///
/// ```
/// use cocklesway::{Relation, bytes};
///
/// let standing = bytes::relation(&[0; 8], 7, &[0; 8], 7).standing()?;
/// assert_eq!(standing.relation, Relation::Touching);
/// # Ok::<(), cocklesway::Refusal>(())
/// ```
#[inline]
pub fn relation(a: &[u8], f: u32, b: &[u8], g: u32) -> Packed {
    Packed(archive::relation_bytes(a, f, b, g))
}

/// Returns the bytes of corners.
///
/// ```
/// let bytes = cocklesway::bytes::of_corners(&[[1, -1]]);
/// assert!(bytes.eq([1, 0, 0, 0, 0xFF, 0xFF, 0xFF, 0xFF]));
/// ```
pub fn of_corners(corners: &[[i32; 2]]) -> impl Iterator<Item = u8> {
    corners.as_flattened().iter().flat_map(|z| z.to_le_bytes())
}

/// Returns the corners that bytes hold. A last corner that is not whole is left out.
///
/// ```
/// let corners = cocklesway::bytes::corners_of(&[1, 0, 0, 0, 0xFF, 0xFF, 0xFF, 0xFF, 7]);
/// assert!(corners.eq([[1, -1]]));
/// ```
#[must_use]
pub fn corners_of(bytes: &[u8]) -> impl ExactSizeIterator<Item = [i32; 2]> {
    let (corners, _) = bytes.as_chunks::<8>();
    corners.iter().map(|&[a, b, c, d, e, f, g, h]| {
        [
            i32::from_le_bytes([a, b, c, d]),
            i32::from_le_bytes([e, f, g, h]),
        ]
    })
}
