//! Corners and edges as pairs of numbers, and corners as a list holds them.

/// x and y.
pub type Corner = [i32; 2];

/// A corner as bytes: four to a number, the lowest first.
pub type Bytes = [[u8; 4]; 2];

/// How a list holds a corner. The questions that take numbers and the calls that take bytes share their code.
pub trait Stored: Copy {
    /// The corner.
    fn read(&self) -> Corner;

    /// The corner as a list holds it.
    fn of(corner: Corner) -> Self;
}

impl Stored for Corner {
    #[inline(always)]
    fn read(&self) -> Corner {
        [self[0], self[1]]
    }

    #[inline(always)]
    fn of(corner: Corner) -> Corner {
        corner
    }
}

impl Stored for Bytes {
    #[inline(always)]
    fn read(&self) -> Corner {
        [i32::from_le_bytes(self[0]), i32::from_le_bytes(self[1])]
    }

    #[inline(always)]
    fn of(corner: Corner) -> Bytes {
        corner.map(i32::to_le_bytes)
    }
}

/// The corners of a list of numbers. None if it is empty, or the last corner is not whole.
#[inline(always)]
pub fn corners_of(numbers: &[i32]) -> Option<&[Corner]> {
    match numbers.as_chunks() {
        (corners @ [_, ..], []) => Some(corners),
        _ => None,
    }
}

/// The same of a list of bytes.
#[inline(always)]
pub fn corners_in(bytes: &[u8]) -> Option<&[Bytes]> {
    let (words, rest) = bytes.as_chunks();
    match words.as_chunks() {
        (corners @ [_, ..], []) if rest.is_empty() => Some(corners),
        _ => None,
    }
}

/// The corners that an output of numbers has room for.
#[inline(always)]
pub fn room_of(out: &mut [i32]) -> &mut [Corner] {
    out.as_chunks_mut().0
}

/// The same of an output of bytes.
#[inline(always)]
pub fn room_in(out: &mut [u8]) -> &mut [Bytes] {
    out.as_chunks_mut().0.as_chunks_mut().0
}

/// A corner plus another.
#[inline(always)]
pub fn plus(p: Corner, q: Corner) -> Corner {
    [p[0] + q[0], p[1] + q[1]]
}

/// A corner minus another. Corners are in range, so that no difference is too large.
#[inline(always)]
pub fn minus(p: Corner, q: Corner) -> Corner {
    [p[0] - q[0], p[1] - q[1]]
}

/// The corner on the other side of the origin.
#[inline(always)]
pub fn opposite(p: Corner) -> Corner {
    [-p[0], -p[1]]
}

/// How far an edge goes across and up: differences of 32 bits, widened once for all products.
pub type Edge = [i64; 2];

/// The edge from p to q.
#[inline(always)]
pub fn edge(p: Corner, q: Corner) -> Edge {
    minus(q, p).map(i64::from)
}

/// The edge read the other way.
#[inline(always)]
pub fn back(e: Edge) -> Edge {
    [-e[0], -e[1]]
}

/// The cross product: above 0 if f turns left of e.
#[inline(always)]
pub fn cross(e: Edge, f: Edge) -> i64 {
    e[0] * f[1] - e[1] * f[0]
}

/// The dot product: above 0 if f goes forward along e.
#[inline(always)]
pub fn dot(e: Edge, f: Edge) -> i64 {
    e[0] * f[0] + e[1] * f[1]
}

/// The value of a corner in a direction.
#[inline(always)]
pub fn value(d: Corner, p: Corner) -> i64 {
    dot(d.map(i64::from), p.map(i64::from))
}

/// Whether the edge goes up, or level to the right.
#[inline(always)]
pub fn is_up(e: Edge) -> bool {
    e[1] > 0 || (e[1] == 0 && e[0] > 0)
}

/// The squared length.
#[inline(always)]
pub fn squared(e: Edge) -> u64 {
    dot(e, e) as u64
}
