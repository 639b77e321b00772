//! What the archive says of itself.
use crate::archive;
use crate::reply::{narrow, position};

/// The limits of the library, as its archive has them.
///
/// ```
/// let limits = cocklesway::limits();
/// let mut out = vec![[0; 2]; limits.corners];
/// let point = cocklesway::Shape::new(&[[0, 0]], limits.floor);
/// assert!(cocklesway::sum(point, point, &mut out).is_ok());
/// ```
#[derive(Clone, Copy, Debug, PartialEq, Eq, Hash)]
#[non_exhaustive]
pub struct Limits {
    /// How many corners a shape may have. An output of that size holds every answer.
    pub corners: usize,
    /// How many points a sweep may have.
    pub points: usize,
    /// The greatest size of a coordinate, in millimetres.
    pub coordinate: u32,
    /// The greatest size of a part of a direction.
    pub part: u32,
    /// The highest floor.
    pub floor: u32,
}

/// Returns the limits of the library.
///
/// ```
/// use cocklesway::{Refusal, Shape, judge, limits};
///
/// let above = limits().floor + 1;
/// assert_eq!(judge(Shape::new(&[[0, 0]], above)), Err(Refusal::Floors));
/// ```
#[must_use]
pub fn limits() -> Limits {
    let limits = archive::limits();
    Limits {
        corners: position(limits.corners),
        points: position(limits.points),
        coordinate: narrow(limits.coordinate),
        part: narrow(limits.part),
        floor: narrow(limits.floor),
    }
}

/// Returns the version of the archive's calls, which is the one that this package is made for. A program does not
/// link with an archive of another version.
///
/// ```
/// assert_eq!(cocklesway::version(), 2);
/// ```
#[must_use]
pub fn version() -> u64 {
    archive::version()
}
