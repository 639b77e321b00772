//! Judging: refusals 1 to 5, in one pass round the corners if the list is a shape, and 13 of its floor.
use super::blame::blame;
use super::corner::{Corner, Stored, corners_of, cross, edge, is_up};
use crate::reply::Numbers;

/// The most corners of a shape.
pub const MOST: usize = 1024;

/// The largest coordinate, either way.
pub const FURTHEST: i32 = 1_000_000;

/// The highest floor.
const HIGHEST: u32 = 65_535;

/// A judged list: its corners, and the position of the last corner that edges go up to.
#[derive(Clone, Copy)]
pub struct Shape<'a, C = Corner> {
    pub corners: &'a [C],
    pub top: usize,
}

/// Whether the list is a shape, and how many corners it has.
#[inline(never)]
pub fn judge(list: &[i32], floor: u32) -> Numbers {
    match admitted(list, floor) {
        Ok(shape) => Numbers::one(shape.corners.len() as u64, floor),
        Err(refusal) => refusal,
    }
}

/// The list as a shape, or its refusal.
#[inline(always)]
pub fn admitted(list: &[i32], floor: u32) -> Result<Shape<'_>, Numbers> {
    let shape = judged(corners_of(list), 1)?;
    on_one_floor(floor, floor)?;
    Ok(shape)
}

/// Both lists as shapes on one floor, or the first refusal.
#[inline(always)]
pub fn admitted_pair<'a>(
    a: &'a [i32],
    f: u32,
    b: &'a [i32],
    g: u32,
) -> Result<(Shape<'a>, Shape<'a>), Numbers> {
    judged_pair(corners_of(a), f, corners_of(b), g)
}

/// The same of the corners of two lists.
#[inline(always)]
pub fn judged_pair<'a, C: Stored>(
    a: Option<&'a [C]>,
    f: u32,
    b: Option<&'a [C]>,
    g: u32,
) -> Result<(Shape<'a, C>, Shape<'a, C>), Numbers> {
    let pair = (judged(a, 1)?, judged(b, 2)?);
    on_one_floor(f, g)?;
    Ok(pair)
}

/// The corners of a list as a shape, or their refusal as those of the list of a question that has that number.
#[inline(always)]
pub fn judged<C: Stored>(corners: Option<&[C]>, which: u64) -> Result<Shape<'_, C>, Numbers> {
    let Some(corners) = corners else {
        return Err(Numbers::blamed(1, which));
    };
    if corners.len() > MOST {
        return Err(Numbers::blamed(2, which));
    }
    if some_outside(corners) {
        return Err(Numbers::blamed(3, which));
    }
    match top(corners) {
        Some(top) => Ok(Shape { corners, top }),
        None => Err(blame(corners, which)),
    }
}

/// The corners as a shape, if they are one.
#[inline(always)]
pub fn shape<C: Stored>(corners: &[C]) -> Option<Shape<'_, C>> {
    if corners.len() > MOST || some_outside(corners) {
        return None;
    }
    let top = top(corners)?;
    Some(Shape { corners, top })
}

/// Refuses 13 if the floors differ, or are above the highest.
#[inline(always)]
pub fn on_one_floor(f: u32, g: u32) -> Result<(), Numbers> {
    if f == g && f <= HIGHEST {
        Ok(())
    } else {
        Err(Numbers::refused(13))
    }
}

/// Whether a coordinate is out of range: a fold without an exit, which compiles to vectors.
#[inline(always)]
pub fn some_outside<C: Stored>(corners: &[C]) -> bool {
    let outside = |z: i32| z.wrapping_add(FURTHEST) as u32 > 2 * FURTHEST as u32;
    corners.iter().fold(false, |far, corner| {
        let [x, y] = corner.read();
        far | outside(x) | outside(y)
    })
}

/// The corner at which edges begin to go down, if the list is a shape: first edges that go up, then edges that go down,
/// each strictly left of the one before it. Of such edges only the first can be level to the right, and only the first
/// that does not go up can be level to the left: of all others the rise alone tells.
#[inline(always)]
pub fn top<C: Stored>(corners: &[C]) -> Option<usize> {
    let (first, rest) = corners.split_first()?;
    let Some((second, rest)) = rest.split_first() else {
        return Some(0);
    };
    let (first, mut corner) = (first.read(), second.read());
    let mut last = edge(first, corner);
    if !is_up(last) {
        return None;
    }
    if rest.is_empty() {
        return Some(1);
    }
    let mut going = rest.iter();
    let mut peak = 1;
    for next in going.by_ref() {
        let next = next.read();
        let e = edge(corner, next);
        if cross(last, e) <= 0 {
            return None;
        }
        (last, corner) = (e, next);
        if e[1] <= 0 {
            break;
        }
        peak += 1;
    }
    for next in going {
        let next = next.read();
        let e = edge(corner, next);
        if cross(last, e) <= 0 || e[1] >= 0 {
            return None;
        }
        (last, corner) = (e, next);
    }
    let e = edge(corner, first);
    (cross(last, e) > 0 && e[1] < 0).then_some(peak)
}
