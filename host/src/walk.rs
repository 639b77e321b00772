//! A sum in parts.
use crate::archive;
use crate::reply::{front, narrow, position};
use crate::{Refusal, Shape};

/// A place on the way round the sum of two shapes. Each part writes the next corners of the sum and hands back the
/// walk for the part after it. A walk is a plain value: it can be kept, copied and made up, and one that is at no
/// place of the sum at hand is refused 14.
///
/// A part costs as much as the whole sum besides its own corners, since both shapes are judged again.
///
/// ```
/// use cocklesway::{Shape, Walk};
///
/// let square = Shape::new(&[[0, 0], [2, 0], [2, 2], [0, 2]], 0);
/// let triangle = Shape::new(&[[0, 0], [1, 0], [0, 1]], 0);
/// let mut sum = Vec::new();
/// let mut walk = Walk::begin(square, triangle)?;
/// while !walk.is_over() {
///     let mut out = [[0; 2]; 2];
///     let part = walk.part(square, triangle, 2, &mut out)?;
///     sum.extend_from_slice(part.corners);
///     walk = part.walk;
/// }
/// assert_eq!(sum, [[0, 0], [3, 0], [3, 2], [2, 3], [0, 3]]);
/// # Ok::<(), cocklesway::Refusal>(())
/// ```
#[derive(Clone, Copy, Debug, PartialEq, Eq, Hash)]
#[must_use]
pub struct Walk {
    first: usize,
    second: usize,
    over: bool,
}

/// A part of a sum, and the walk for the next one.
///
/// ```
/// use cocklesway::{Shape, Walk};
///
/// let point = Shape::new(&[[1, 1]], 5);
/// let mut out = [[0; 2]; 1];
/// let part = Walk::begin(point, point)?.part(point, point, 1, &mut out)?;
/// assert_eq!((part.corners, part.floor), (&[[2, 2]][..], 5));
/// assert!(part.walk.is_over());
/// # Ok::<(), cocklesway::Refusal>(())
/// ```
#[derive(Clone, Copy, Debug, PartialEq, Eq, Hash)]
#[non_exhaustive]
#[must_use]
pub struct Part<'o> {
    /// The corners that were written at the front of the output.
    pub corners: &'o [[i32; 2]],
    /// The walk for the next part.
    pub walk: Walk,
    /// The floor.
    pub floor: u32,
}

impl Walk {
    /// Returns the walk for the first part of the sum of two shapes.
    ///
    /// # Errors
    /// Refused as the sum is, but for 8: 1 to 5 of the first list, then of the second, 13, 6, 7.
    ///
    /// ```
    /// use cocklesway::{Shape, Walk};
    ///
    /// let point = Shape::new(&[[1, 1]], 0);
    /// assert_eq!(Walk::begin(point, point), Ok(Walk::at(0, 0, false)));
    /// ```
    #[inline]
    pub fn begin(a: Shape<'_>, b: Shape<'_>) -> Result<Walk, Refusal> {
        let [first, second, over, ..] = archive::begin(a, b).values()?;
        Ok(Walk::of(first, second, over))
    }

    /// Makes up a walk from how many edges of either shape are passed, and whether it is over.
    ///
    /// ```
    /// use cocklesway::{Refusal, Shape, Walk};
    ///
    /// let point = Shape::new(&[[1, 1]], 0);
    /// let walk = Walk::at(3, 0, false);
    /// assert_eq!(walk.part(point, point, 1, &mut [[0; 2]; 1]), Err(Refusal::NotAPlace));
    /// ```
    pub const fn at(first: usize, second: usize, over: bool) -> Walk {
        Walk {
            first,
            second,
            over,
        }
    }

    /// Writes the next corners of the sum at the front of the output, k or what remains, whichever is less. The
    /// rest of the output is kept. With k = 0, and after the last corner, nothing is written and the walk stays.
    ///
    /// # Errors
    /// Refused, with the output as it was: 1 to 5 of the first list, then of the second, 13, 14, 6, 7, 8. 6 and 7
    /// are of the whole sum, 8 of the corners of this part.
    ///
    /// ```
    /// use cocklesway::{Shape, Walk};
    ///
    /// let square = Shape::new(&[[0, 0], [2, 0], [2, 2], [0, 2]], 0);
    /// let point = Shape::new(&[[1, 1]], 0);
    /// let mut out = [[7; 2]; 4];
    /// let part = Walk::at(1, 0, false).part(square, point, 2, &mut out)?;
    /// assert_eq!(part.corners, [[3, 1], [3, 3]]);
    /// assert_eq!(part.walk, Walk::at(3, 0, false));
    /// assert_eq!(out[2..], [[7; 2]; 2]);
    /// # Ok::<(), cocklesway::Refusal>(())
    /// ```
    #[inline]
    pub fn part<'o>(
        self,
        a: Shape<'_>,
        b: Shape<'_>,
        k: usize,
        out: &'o mut [[i32; 2]],
    ) -> Result<Part<'o>, Refusal> {
        let passed = [self.first, self.second];
        let reply = archive::part([a, b], passed, self.over, k, out.as_flattened_mut());
        let [count, first, second, over, floor, ..] = reply.values()?;
        Ok(Part {
            corners: front(out, count),
            walk: Walk::of(first, second, over),
            floor: narrow(floor),
        })
    }

    fn of(first: u64, second: u64, over: u64) -> Walk {
        Walk::at(position(first), position(second), over == 1)
    }

    /// Returns how many edges of the first shape are passed.
    ///
    /// ```
    /// assert_eq!(cocklesway::Walk::at(3, 1, false).first(), 3);
    /// ```
    #[must_use]
    pub const fn first(self) -> usize {
        self.first
    }

    /// Returns how many edges of the second shape are passed.
    ///
    /// ```
    /// assert_eq!(cocklesway::Walk::at(3, 1, false).second(), 1);
    /// ```
    #[must_use]
    pub const fn second(self) -> usize {
        self.second
    }

    /// Returns whether all corners of the sum are written.
    ///
    /// ```
    /// assert!(cocklesway::Walk::at(4, 3, true).is_over());
    /// ```
    #[must_use]
    pub const fn is_over(self) -> bool {
        self.over
    }
}
