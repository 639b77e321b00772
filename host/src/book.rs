//! The log of shapes by name.
use crate::archive;
use crate::reply::{front, narrow};
use crate::{Drive, Gap, Meeting, Nearest, Neighbour, Refusal, Shape};

/// A log of shapes by name, over lent bytes. It is new if all bytes are 0. A shape is added after the last whole
/// record, and the latest record of a name counts.
///
/// ```
/// use cocklesway::{Addition, Book, Refusal, Shape};
///
/// let mut bytes = [0; 64];
/// let mut book = Book::new(&mut bytes);
/// let bed = Shape::new(&[[0, 0], [2000, 0], [2000, 900], [0, 900]], 3);
/// assert_eq!(book.add(7, bed, usize::MAX), Ok(Addition::Finished));
///
/// let mut out = [[0; 2]; 8];
/// assert_eq!(book.read(7, &mut out), Ok(bed));
/// assert_eq!(book.read(8, &mut out), Err(Refusal::NoRecord));
/// ```
#[derive(Debug, PartialEq, Eq)]
pub struct Book<'a> {
    bytes: &'a mut [u8],
}

/// Whether an addition or a packing made all of its stores. There is no third case.
///
/// ```
/// use cocklesway::{Addition, Book, Shape};
///
/// let mut bytes = [0; 18];
/// let mut book = Book::new(&mut bytes);
/// let point = Shape::new(&[[1, -1]], 2);
/// assert_eq!(book.add(7, point, 16), Ok(Addition::Cut));
/// assert_eq!(book.add(7, point, usize::MAX), Ok(Addition::Finished));
/// ```
#[derive(Clone, Copy, Debug, PartialEq, Eq, Hash)]
#[must_use]
pub enum Addition {
    /// The shape is in the log, or the log is packed.
    Finished,
    /// The allowance ran out. After an addition every name still reads as before; a packing is called again.
    Cut,
}

impl<'a> Book<'a> {
    /// Takes any bytes for a log.
    ///
    /// ```
    /// use cocklesway::{Book, Refusal};
    ///
    /// let mut bytes = [0; 64];
    /// assert_eq!(Book::new(&mut bytes).read(7, &mut []), Err(Refusal::NoRecord));
    /// ```
    #[must_use]
    pub const fn new(bytes: &'a mut [u8]) -> Book<'a> {
        Book { bytes }
    }

    /// Returns the bytes.
    ///
    /// ```
    /// use cocklesway::{Addition, Book, Shape};
    ///
    /// let mut bytes = [0; 18];
    /// let mut book = Book::new(&mut bytes);
    /// assert_eq!(book.add(7, Shape::new(&[[1, -1]], 2), usize::MAX), Ok(Addition::Finished));
    /// assert_eq!(book.bytes()[..8], [15, 0, 2, 0, 7, 0, 2, 0]);
    /// ```
    #[must_use]
    pub const fn bytes(&self) -> &[u8] {
        self.bytes
    }

    /// Writes the latest shape of a name at the front of the output and returns it, as [`log_read`] does.
    ///
    /// # Errors
    /// Refused, with the output as it was: 15, 19, 8.
    ///
    /// ```
    /// use cocklesway::{Book, Refusal};
    ///
    /// // Two bytes and the last: no record is so short.
    /// let mut bytes = [3, 0, 1, 0, 0x5A];
    /// let damaged = Book::new(&mut bytes).read(7, &mut []);
    /// assert_eq!(damaged, Err(Refusal::Damaged { place: 0 }));
    /// ```
    #[inline]
    pub fn read<'o>(&self, name: u16, out: &'o mut [[i32; 2]]) -> Result<Shape<'o>, Refusal> {
        log_read(self.bytes, name, out)
    }

    /// Writes the current shape at a position at the front of the output and returns it with its name, as
    /// [`log_entry`] does.
    ///
    /// # Errors
    /// Refused, with the output as it was: 15, 20, 8.
    ///
    /// ```
    /// use cocklesway::{Addition, Book, Refusal, Shape};
    ///
    /// let mut bytes = [0; 64];
    /// let mut book = Book::new(&mut bytes);
    /// let point = Shape::new(&[[1, -1]], 2);
    /// assert_eq!(book.add(7, point, usize::MAX), Ok(Addition::Finished));
    /// let mut out = [[0; 2]; 1];
    /// assert_eq!(book.entry(0, &mut out), Ok((7, point)));
    /// assert_eq!(book.entry(1, &mut out), Err(Refusal::TooFew));
    /// ```
    #[inline]
    pub fn entry<'o>(
        &self,
        k: usize,
        out: &'o mut [[i32; 2]],
    ) -> Result<(u16, Shape<'o>), Refusal> {
        log_entry(self.bytes, k, out)
    }

    /// Returns the names of all current shapes, in the order of the log. A refusal ends them.
    ///
    /// ```
    /// use cocklesway::{Addition, Book, Shape};
    ///
    /// let mut bytes = [0; 64];
    /// let mut book = Book::new(&mut bytes);
    /// for name in [7, 5, 7] {
    ///     let point = Shape::new(&[[1, -1]], 2);
    ///     assert_eq!(book.add(name, point, usize::MAX), Ok(Addition::Finished));
    /// }
    /// assert!(book.entries(&mut [[0; 2]; 1]).eq([5, 7].map(Ok)));
    /// ```
    pub fn entries(&self, out: &mut [[i32; 2]]) -> impl Iterator<Item = Result<u16, Refusal>> {
        let mut next = Some(0);
        core::iter::from_fn(move || {
            let k = next.take()?;
            match log_entry(self.bytes, k, out) {
                Ok((name, _)) => {
                    next = k.checked_add(1);
                    Some(Ok(name))
                }
                Err(Refusal::TooFew) => None,
                Err(refusal) => Some(Err(refusal)),
            }
        })
    }

    /// Returns which of the current shapes on a shape's floor is nearest to it, as [`log_nearest`] does. The name `but`
    /// is left out.
    ///
    /// # Errors
    /// Refused: 1 to 5, 13, 15, 20.
    ///
    /// ```
    /// use cocklesway::{Addition, Book, Refusal, Shape};
    ///
    /// let mut bytes = [0; 64];
    /// let mut book = Book::new(&mut bytes);
    /// let [bed, chair] = [Shape::new(&[[0, 0], [900, 0]], 3), Shape::new(&[[1400, 0]], 3)];
    /// assert_eq!(book.add(7, bed, usize::MAX), Ok(Addition::Finished));
    /// assert_eq!(book.add(8, chair, usize::MAX), Ok(Addition::Finished));
    ///
    /// let answer = book.nearest(bed, Some(7))?;
    /// assert_eq!((answer.name, answer.rounded()), (8, 500));
    /// assert_eq!(book.nearest(Shape::new(&[[0, 0]], 4), None), Err(Refusal::TooFew));
    /// # Ok::<(), Refusal>(())
    /// ```
    #[inline]
    pub fn nearest(&self, shape: Shape<'_>, but: Option<u16>) -> Result<Neighbour, Refusal> {
        log_nearest(self.bytes, shape, but)
    }

    /// Returns which two current shapes on a cart's floor have the narrowest gap, both grown by its outline, as
    /// [`log_gap`] does.
    ///
    /// # Errors
    /// Refused: 1 to 5, 13, 15, 20, then 6 and 7 of the grown shapes, in the order of the log.
    ///
    /// ```
    /// use cocklesway::{Addition, Book, Refusal, Shape};
    ///
    /// let mut bytes = [0; 64];
    /// let mut book = Book::new(&mut bytes);
    /// let cart = Shape::new(&[[-450, 0], [450, 0]], 3);
    /// assert_eq!(book.gap(cart), Err(Refusal::TooFew));
    ///
    /// for (name, x) in [(7, 0), (8, 1000)] {
    ///     assert_eq!(book.add(name, Shape::new(&[[x, 0]], 3), usize::MAX), Ok(Addition::Finished));
    /// }
    /// let answer = book.gap(cart)?;
    /// assert_eq!((answer.names, answer.rounded()), ([7, 8], 100));
    /// # Ok::<(), Refusal>(())
    /// ```
    #[inline]
    pub fn gap(&self, cart: Shape<'_>) -> Result<Gap, Refusal> {
        log_gap(self.bytes, cart)
    }

    /// Returns which current shape on a cart's floor its straight drive meets first, and where, as [`log_contact`]
    /// does.
    ///
    /// # Errors
    /// Refused: 1 to 5, 13, 15, 20, 3 of a place, which is the second or third list, then 6 and 7 of the grown shapes,
    /// in the order of the log.
    ///
    /// ```
    /// use cocklesway::{Addition, Book, Refusal, Shape, Which};
    ///
    /// let mut bytes = [0; 64];
    /// let mut book = Book::new(&mut bytes);
    /// let cart = Shape::new(&[[-450, 0], [450, 0]], 3);
    /// assert_eq!(book.contact(cart, [0, 0], [900, 0]), Err(Refusal::TooFew));
    ///
    /// assert_eq!(book.add(7, Shape::new(&[[1000, 0]], 3), usize::MAX), Ok(Addition::Finished));
    /// let (name, meeting) = book.contact(cart, [0, 0], [1100, 0])?.first.expect("7 is ahead");
    /// assert_eq!((name, meeting.numerator, meeting.denominator, meeting.safe), (7, 1, 2, 550));
    ///
    /// let far = book.contact(cart, [0, 0], [0, 1_000_001]);
    /// assert_eq!(far, Err(Refusal::Range { shape: Which::Third }));
    /// # Ok::<(), Refusal>(())
    /// ```
    #[inline]
    pub fn contact(&self, cart: Shape<'_>, from: [i32; 2], to: [i32; 2]) -> Result<Drive, Refusal> {
        log_contact(self.bytes, cart, from, to)
    }

    /// Adds a shape under a name with at most `allowed` stores of single bytes, and returns whether they sufficed.
    /// With `usize::MAX` they always do. Whenever it is stopped, every name reads as before or as afterwards.
    ///
    /// # Errors
    /// Refused, with the log as it was: 1 to 5, 13, 15, 16.
    ///
    /// ```
    /// use cocklesway::{Addition, Book, Refusal, Shape};
    ///
    /// let mut bytes = [0; 18];
    /// let mut book = Book::new(&mut bytes);
    /// let point = Shape::new(&[[1, -1]], 2);
    /// assert_eq!(book.add(7, point, 17), Ok(Addition::Finished));
    /// assert_eq!(book.add(8, point, 17), Err(Refusal::Full));
    /// ```
    #[inline]
    pub fn add(
        &mut self,
        name: u16,
        shape: Shape<'_>,
        allowed: usize,
    ) -> Result<Addition, Refusal> {
        match archive::log_add(self.bytes, name, shape, allowed).values()? {
            [1, ..] => Ok(Addition::Finished),
            _ => Ok(Addition::Cut),
        }
    }

    /// Packs the log into a second run of bytes, which may hold anything: the current records in their order, without
    /// those of the name `but`, and zeros after them. Returns whether the allowed stores of single bytes sufficed. As
    /// many as the new run has bytes always do. A packing that was cut is called again and goes on where it was cut;
    /// until one finishes, the new run may read as anything. This is how a shape is taken off a log.
    ///
    /// # Errors
    /// Refused, with the new run as it was: 15, 16.
    ///
    /// ```
    /// use cocklesway::{Addition, Book, Refusal, Shape};
    ///
    /// let mut bytes = [0; 51];
    /// let mut book = Book::new(&mut bytes);
    /// for (name, x) in [(7, 1), (8, 2), (7, 3)] {
    ///     assert_eq!(book.add(name, Shape::new(&[[x, 0]], 0), usize::MAX), Ok(Addition::Finished));
    /// }
    /// let mut fresh = [0; 51];
    /// assert_eq!(book.pack_into(&mut fresh, None, 3), Ok(Addition::Cut));
    /// assert_eq!(book.pack_into(&mut fresh, None, 51), Ok(Addition::Finished));
    /// assert_eq!(book.pack_into(&mut fresh, None, 0), Ok(Addition::Finished));
    ///
    /// let mut out = [[0; 2]];
    /// let packed = Book::new(&mut fresh);
    /// assert_eq!(packed.read(7, &mut out), Ok(Shape::new(&[[3, 0]], 0)));
    /// assert_eq!(packed.bytes()[34..], [0; 17]);
    ///
    /// let mut fresh = [0; 17];
    /// assert_eq!(book.pack_into(&mut fresh, Some(7), 17), Ok(Addition::Finished));
    /// assert_eq!(Book::new(&mut fresh).read(7, &mut out), Err(Refusal::NoRecord));
    /// assert_eq!(book.pack_into(&mut fresh, None, 17), Err(Refusal::Full));
    /// ```
    #[inline]
    pub fn pack_into(
        &self,
        new: &mut [u8],
        but: Option<u16>,
        allowed: usize,
    ) -> Result<Addition, Refusal> {
        log_pack(self.bytes, new, but, allowed)
    }
}

/// Names have 16 bits: this is nobody's.
const NOBODY: u32 = 1 << 16;

/// Packs a log into a second run of bytes, as [`Book::pack_into`] does. The old log may be read-only memory.
///
/// # Errors
/// Refused, with the new run as it was: 15, 16.
///
/// ```
/// use cocklesway::{Addition, Refusal, log_pack};
///
/// // Kind 1, name 7, the point 1 -1, and a torn end.
/// let old = [13, 0, 1, 0, 7, 0, 1, 0, 0, 0, 255, 255, 255, 255, 0x5A, 13, 0];
/// let mut new = [1; 16];
/// assert_eq!(log_pack(&old, &mut new, None, 16), Ok(Addition::Finished));
/// assert_eq!((&new[..15], new[15]), (&old[..15], 0));
/// assert_eq!(log_pack(&old, &mut [0; 14], None, 14), Err(Refusal::Full));
/// ```
#[inline]
pub fn log_pack(
    old: &[u8],
    new: &mut [u8],
    but: Option<u16>,
    allowed: usize,
) -> Result<Addition, Refusal> {
    match archive::log_pack(old, new, but.map_or(NOBODY, u32::from), allowed).values()? {
        [1, ..] => Ok(Addition::Finished),
        _ => Ok(Addition::Cut),
    }
}

/// Writes the latest shape of a name in a log at the front of the output and returns it, on its own floor. The rest
/// of the output is kept. The log may be read-only memory; one that is also added to is a [`Book`].
///
/// # Errors
/// Refused, with the output as it was: 15, 19, 8.
///
/// ```
/// use cocklesway::{Refusal, Shape, log_read};
///
/// // From before there were floors: kind 1, name 7, the point 1 -1.
/// let log = [13, 0, 1, 0, 7, 0, 1, 0, 0, 0, 255, 255, 255, 255, 0x5A];
/// let mut out = [[0; 2]; 1];
/// assert_eq!(log_read(&log, 7, &mut out), Ok(Shape::new(&[[1, -1]], 0)));
/// assert_eq!(log_read(&log, 7, &mut []), Err(Refusal::Room));
/// ```
#[inline]
pub fn log_read<'o>(log: &[u8], name: u16, out: &'o mut [[i32; 2]]) -> Result<Shape<'o>, Refusal> {
    archive::log_read(log, name, out.as_flattened_mut()).written(out)
}

/// Writes the current shape at a position of a log at the front of the output and returns it with its name. Positions
/// count from 0, in the order of the log: each name has one, where its latest record is.
///
/// # Errors
/// Refused, with the output as it was: 15, 20, 8.
///
/// ```
/// use cocklesway::{Refusal, Shape, log_entry};
///
/// let log = [13, 0, 1, 0, 7, 0, 1, 0, 0, 0, 255, 255, 255, 255, 0x5A];
/// let mut out = [[0; 2]; 1];
/// assert_eq!(log_entry(&log, 0, &mut out), Ok((7, Shape::new(&[[1, -1]], 0))));
/// assert_eq!(log_entry(&log, 1, &mut out), Err(Refusal::TooFew));
/// ```
#[inline]
pub fn log_entry<'o>(
    log: &[u8],
    k: usize,
    out: &'o mut [[i32; 2]],
) -> Result<(u16, Shape<'o>), Refusal> {
    let [count, name, floor, ..] = archive::log_entry(log, k, out.as_flattened_mut()).values()?;
    Ok((name_of(name), Shape::new(front(out, count), narrow(floor))))
}

/// Returns which of the current shapes on a shape's floor in a log is nearest to it, and how near: the first in the log
/// on a tie. The name `but` is left out. What they are at is what [`clearance`](crate::clearance) answers of the shape
/// and that one.
///
/// # Errors
/// Refused: 1 to 5, 13, 15, 20.
///
/// ```
/// use cocklesway::{Nearest, Refusal, Shape, log_nearest};
///
/// // On floor 0: kind 1, name 7, the point 1 -1.
/// let log = [13, 0, 1, 0, 7, 0, 1, 0, 0, 0, 255, 255, 255, 255, 0x5A];
/// let post = Shape::new(&[[4, 3]], 0);
/// let answer = log_nearest(&log, post, None)?;
/// let corners = Nearest::Corners { first: 0, second: 0, squared: 25, rounded: 5 };
/// assert_eq!((answer.name, answer.nearest), (7, Some(corners)));
/// assert_eq!(log_nearest(&log, post, Some(7)), Err(Refusal::TooFew));
/// # Ok::<(), Refusal>(())
/// ```
#[inline]
pub fn log_nearest(log: &[u8], shape: Shape<'_>, but: Option<u16>) -> Result<Neighbour, Refusal> {
    let but = but.map_or(NOBODY as usize, usize::from);
    let [name, values @ .., _] = archive::log_nearest(log, shape, but).values()?;
    let (nearest, floor) = Nearest::of(values);
    Ok(Neighbour {
        name: name_of(name),
        nearest,
        floor,
    })
}

/// Returns which two current shapes on a cart's floor in a log have the narrowest gap, both grown by its outline, and
/// how wide it is: the first such pair in the order of the log. The corners of the outline are relative to the cart's
/// own origin; the point 0 0 asks the gap of the shapes as they are.
///
/// # Errors
/// Refused: 1 to 5, 13, 15, 20, then 6 and 7 of the grown shapes, in the order of the log.
///
/// ```
/// use cocklesway::{Refusal, Shape, log_gap};
///
/// // A gap is between two.
/// let log = [13, 0, 1, 0, 7, 0, 1, 0, 0, 0, 255, 255, 255, 255, 0x5A];
/// assert_eq!(log_gap(&log, Shape::new(&[[0, 0]], 0)), Err(Refusal::TooFew));
/// ```
#[inline]
pub fn log_gap(log: &[u8], cart: Shape<'_>) -> Result<Gap, Refusal> {
    let [first, second, values @ ..] = archive::log_gap(log, cart).values()?;
    let (nearest, floor) = Nearest::of(values);
    Ok(Gap {
        names: [name_of(first), name_of(second)],
        nearest,
        floor,
    })
}

/// Returns which of the current shapes on a cart's floor in a log its straight drive meets first, and where on the way:
/// the first in the log of several, and what [`contact`](crate::contact) answers of that one. The cart does not turn.
/// The corners of its outline are relative to its own origin, which goes from the one place to the other.
///
/// # Errors
/// Refused: 1 to 5, 13, 15, 20, 3 of a place, which is the second or third list, then 6 and 7 of the grown shapes, in
/// the order of the log.
///
/// ```
/// use cocklesway::{Refusal, Shape, log_contact};
///
/// // On floor 0: kind 1, name 7, the point 1 -1.
/// let log = [13, 0, 1, 0, 7, 0, 1, 0, 0, 0, 255, 255, 255, 255, 0x5A];
/// let cart = Shape::new(&[[0, 0]], 0);
/// let (name, meeting) = log_contact(&log, cart, [-2, -1], [4, -1])?.first.expect("7 is ahead");
/// assert_eq!((name, meeting.numerator, meeting.denominator, meeting.safe), (7, 1, 2, 3));
/// assert_eq!(log_contact(&log, cart, [-2, 0], [4, 0])?.first, None);
/// # Ok::<(), Refusal>(())
/// ```
#[inline]
pub fn log_contact(
    log: &[u8],
    cart: Shape<'_>,
    from: [i32; 2],
    to: [i32; 2],
) -> Result<Drive, Refusal> {
    Ok(match archive::log_contact(log, cart, from, to).values()? {
        [0, floor, ..] => Drive {
            first: None,
            floor: narrow(floor),
        },
        [_, name, numerator, denominator, safe, floor, ..] => {
            let meeting = Meeting {
                numerator,
                denominator,
                safe,
            };
            Drive {
                first: Some((name_of(name), meeting)),
                floor: narrow(floor),
            }
        }
    })
}

fn name_of(value: u64) -> u16 {
    u16::try_from(value).unwrap_or(u16::MAX)
}
