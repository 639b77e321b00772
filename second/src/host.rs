//! The calls of a host (document 02, W14): lists as bytes, floors as numbers, the reply as one number.

use crate::combine;
use crate::judge;
use crate::plane::{Point, Shape};
use crate::refusal::Refusal;
use crate::separation::{self, Relation};

pub const MOST_FLOOR: u32 = 65_535;

/// A call that writes.
pub type Writes = fn(&[u8], u32, &[u8], u32, &mut [u8]) -> u64;

pub fn judge(list: &[u8], floor: u32) -> u64 {
    packed(shape(list, 1).and_then(|a| Ok((a.len(), one_floor(&[floor])?))))
}

pub fn sum(a: &[u8], f: u32, b: &[u8], g: u32, out: &mut [u8]) -> u64 {
    packed(pair(a, f, b, g).and_then(|(a, b, floor)| {
        let answer = combine::sum(&a, &b)?;
        Ok((stored(&answer, out)?, floor))
    }))
}

pub fn merge(a: &[u8], f: u32, b: &[u8], g: u32, out: &mut [u8]) -> u64 {
    packed(pair(a, f, b, g).and_then(|(a, b, floor)| {
        let answer = combine::merge(&a, &b)?;
        Ok((stored(&answer, out)?, floor))
    }))
}

pub fn relation(a: &[u8], f: u32, b: &[u8], g: u32) -> u64 {
    packed(pair(a, f, b, g).map(|(a, b, floor)| {
        let word = match separation::relation(&a, &b) {
            Relation::Apart => 0,
            Relation::Touching => 1,
            Relation::Overlapping => 2,
        };
        (word, floor)
    }))
}

/// The bytes that corners make: x and y of each, the lowest byte first.
pub fn bytes_of(corners: &[Point]) -> Vec<u8> {
    let parts = corners.iter().flat_map(|c| [c.x, c.y]);
    parts
        .flat_map(|part| [0, 8, 16, 24].map(|shift| (part >> shift & 0xFF) as u8))
        .collect()
}

/// The shape that bytes hold; a count that is no multiple of four is refused 1.
fn shape(bytes: &[u8], number: usize) -> Result<Shape, Refusal> {
    if !bytes.len().is_multiple_of(4) {
        return Err(Refusal::of_shape(1, number));
    }
    let numbers: Vec<i32> = bytes.chunks(4).map(number_in).collect();
    judge::judge(&numbers, number)
}

/// Two's complement of 32 bits.
fn number_in(bytes: &[u8]) -> i32 {
    let bits = bytes
        .iter()
        .rev()
        .fold(0, |bits, &byte| bits << 8 | u32::from(byte));
    bits as i32
}

/// Both shapes and their floor: the shapes' own checks go before 13.
fn pair(a: &[u8], f: u32, b: &[u8], g: u32) -> Result<(Shape, Shape, u32), Refusal> {
    let (a, b) = (shape(a, 1)?, shape(b, 2)?);
    Ok((a, b, one_floor(&[f, g])?))
}

/// The one floor, or 13 where one is too high or two differ.
fn one_floor(floors: &[u32]) -> Result<u32, Refusal> {
    let floor = floors[0];
    let good = |&other: &u32| other <= MOST_FLOOR && other == floor;
    if floors.iter().all(good) {
        Ok(floor)
    } else {
        Err(Refusal::plain(13))
    }
}

/// Puts the corners at the front of the output, or refuses 8; how many they are.
fn stored(answer: &[Point], out: &mut [u8]) -> Result<usize, Refusal> {
    if out.len() < 8 * answer.len() {
        return Err(Refusal::plain(8));
    }
    for (to, byte) in out.iter_mut().zip(bytes_of(answer)) {
        *to = byte;
    }
    Ok(answer.len())
}

/// The refusal's byte, the shape's, and twice two bytes: edge and corner, or what is answered and
/// the floor.
fn packed(reply: Result<(usize, u32), Refusal>) -> u64 {
    let (refusal, shape, first, second) = match reply {
        Ok((answer, floor)) => (0, 0, answer, floor as usize),
        Err(refusal) => {
            let (edge, corner) = refusal.broken.unwrap_or((0, 0));
            let shape = refusal.shape.unwrap_or(0);
            (usize::from(refusal.number), shape, edge, corner)
        }
    };
    (refusal + 0x100 * (shape + 0x100 * (first + 0x1_0000 * second))) as u64
}

#[cfg(test)]
mod tests {
    use super::*;
    use crate::plane::point;

    fn square() -> Vec<u8> {
        bytes_of(&[point(0, 0), point(2, 0), point(2, 2), point(0, 2)])
    }

    #[test]
    fn numbers_are_four_bytes_the_lowest_first() {
        let bytes = bytes_of(&[point(1, -1), point(-1_000_000, 0x0102)]);
        let stated = [
            1, 0, 0, 0, 0xFF, 0xFF, 0xFF, 0xFF, 0xC0, 0xBD, 0xF0, 0xFF, 2, 1, 0, 0,
        ];
        assert_eq!(bytes, stated);
        assert_eq!(number_in(&bytes[8..12]), -1_000_000);
    }

    #[test]
    fn answers_and_refusals_are_packed_from_the_low_end() {
        assert_eq!(judge(&square(), 2), 0x0002_0004_0000);
        assert_eq!(judge(&square(), 65_535), 0xFFFF_0004_0000);
        assert_eq!(judge(&square(), 65_536), 0x0d);
        assert_eq!(judge(&square()[1..], 65_536), 0x0101);
        let star = [0, 0, 5, 4, -1, 4, 4, 0, 2, 6].map(i32::to_le_bytes);
        assert_eq!(judge(star.as_flattened(), 0), 0x0003_0000_0104);
        assert_eq!(
            relation(&square(), 0, star.as_flattened(), 1),
            0x0003_0000_0204
        );
        assert_eq!(relation(&square(), 7, &square(), 7), 0x0007_0002_0000);
        assert_eq!(relation(&square(), 0, &bytes_of(&[point(3, 3)]), 0), 0);
    }

    #[test]
    fn only_an_answer_writes() {
        let point = bytes_of(&[point(1, -1)]);
        let mut out = [7; 33];
        let refused = |f, g, out: &mut [u8]| sum(&square(), f, &point, g, out);
        assert_eq!(refused(3, 3, &mut out[..31]), 8);
        assert_eq!(refused(3, 4, &mut out), 13);
        assert_eq!(refused(65_536, 65_536, &mut out), 13);
        assert_eq!(out, [7; 33]);
        assert_eq!(refused(3, 3, &mut out), 0x0003_0004_0000);
        assert_eq!((&out[..8], out[32]), (&point[..], 7));
    }
}
