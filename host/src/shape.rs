//! Lists of corners on a floor.

/// A list of corners, lent with the floor that it is on. Any list may be lent: each question judges it first, and
/// refuses one that is no shape.
///
/// A list is a shape if it has at least one corner and no more than [`limits`](crate::limits) allows, all in range,
/// counterclockwise, each strictly to the left of every edge that it is no end of, and begins at the lowest corner,
/// of several lowest at the leftmost. One corner is a point, and two different ones are a segment.
///
/// ```
/// use cocklesway::{Shape, judge};
///
/// const SQUARE: Shape = Shape::new(&[[0, 0], [2, 0], [2, 2], [0, 2]], 3);
/// assert_eq!(judge(SQUARE)?.count, 4);
///
/// let [x, y] = [4, 1];
/// let point = Shape { corners: &[[x, y]], floor: 3 };
/// assert_eq!(judge(point)?.count, 1);
/// # Ok::<(), cocklesway::Refusal>(())
/// ```
#[derive(Clone, Copy, Debug, PartialEq, Eq, Hash)]
pub struct Shape<'a> {
    /// x and y of each corner, in millimetres.
    pub corners: &'a [[i32; 2]],
    /// The floor. One above 65,535 is refused 13.
    pub floor: u32,
}

impl<'a> Shape<'a> {
    /// Lends corners, x and y of each in millimetres, on a floor.
    ///
    /// ```
    /// use cocklesway::Shape;
    ///
    /// let segment = Shape::new(&[[0, 0], [4, 0]], 7);
    /// assert_eq!(segment.corners, [[0, 0], [4, 0]]);
    /// ```
    #[inline]
    #[must_use]
    pub const fn new(corners: &'a [[i32; 2]], floor: u32) -> Shape<'a> {
        Shape { corners, floor }
    }

    /// Lends numbers, x and y by turns. For an odd count of them the list is empty: both are refused 1.
    ///
    /// ```
    /// use cocklesway::{Refusal, Shape, Which, judge};
    ///
    /// assert_eq!(Shape::of_numbers(&[0, 0, 4, 0], 7), Shape::new(&[[0, 0], [4, 0]], 7));
    ///
    /// let odd = Shape::of_numbers(&[0, 0, 4], 7);
    /// assert_eq!(judge(odd), Err(Refusal::Count { shape: Which::First }));
    /// ```
    #[inline]
    #[must_use]
    pub const fn of_numbers(numbers: &'a [i32], floor: u32) -> Shape<'a> {
        match numbers.as_chunks() {
            (corners, []) => Shape::new(corners, floor),
            _ => Shape::new(&[], floor),
        }
    }
}
