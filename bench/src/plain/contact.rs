//! Contact: the way of the cart's place, cut by the walls of the grown obstacle, which is walked and not written.
use super::corner::{Corner, Edge, cross, edge, minus, squared};
use super::extent::extent;
use super::judge::{admitted_pair, some_outside};
use super::sum::survey;
use super::walk::Walk;
use super::wide::product;
use crate::reply::Numbers;
use std::ops::ControlFlow::{Break, Continue};

/// Where a cart that drives straight first meets an obstacle: 0; or 1, the fraction of the way, and the millimetres.
#[inline(never)]
pub fn contact(
    obstacle: &[i32],
    f: u32,
    cart: &[i32],
    g: u32,
    from: Corner,
    to: Corner,
) -> Numbers {
    match asked(obstacle, f, cart, g, from, to) {
        Ok(told) | Err(told) => told,
    }
}

fn asked(
    obstacle: &[i32],
    f: u32,
    cart: &[i32],
    g: u32,
    from: Corner,
    to: Corner,
) -> Result<Numbers, Numbers> {
    let (obstacle, cart) = admitted_pair(obstacle, f, cart, g)?;
    places(from, to, 3)?;
    let mut walk = survey::<_, true>(obstacle, cart).map_err(Numbers::refused)?;
    let mut way = Way::WHOLE;
    let grown = grown_box(extent(obstacle), extent(cart));
    Ok(match way.meets(grown, &mut walk, from, to) {
        Some(fraction) => {
            let [n, d, safe] = told(fraction, from, to);
            Numbers::all([1, n, d, safe, f.into()])
        }
        None => Numbers::one(0, f),
    })
}

/// Refuses 3 of the place of departure, the list of that number, or of the destination, the next one.
#[inline(always)]
pub fn places(from: Corner, to: Corner, first: u64) -> Result<(), Numbers> {
    for (place, which) in [(from, first), (to, first + 1)] {
        if some_outside(&[place]) {
            return Err(Numbers::blamed(3, which));
        }
    }
    Ok(())
}

/// A fraction of the way in lowest terms, and the millimetres before it.
#[inline(always)]
pub fn told((n, d): Fraction, from: Corner, to: Corner) -> [u64; 3] {
    let common = divisor(n, d);
    let (n, d) = (n / common, d / common);
    [n, d, millimetres(n, d, squared(edge(from, to)))]
}

/// What an obstacle spans, grown by a cart.
#[inline(always)]
pub fn grown_box([low, high]: [Corner; 2], [least, most]: [Corner; 2]) -> [Corner; 2] {
    [minus(low, most), minus(high, least)]
}

/// A part of the way: a numerator and a denominator.
pub type Fraction = (u64, u64);

/// The part of a way that is inside all walls so far, by fractions of it.
pub struct Way {
    pub enter: Fraction,
    pub leave: Fraction,
}

impl Way {
    pub const WHOLE: Way = Way {
        enter: (0, 1),
        leave: (1, 1),
    };

    /// Where the way enters the last wall, unless it is never inside all of them. The sides of the box are walls too,
    /// which a grown obstacle without an inside needs.
    #[inline(always)]
    fn meets(
        &mut self,
        grown: [Corner; 2],
        walk: &mut Walk<Corner, true>,
        from: Corner,
        to: Corner,
    ) -> Option<Fraction> {
        if self.misses_box(grown, from, to) {
            return None;
        }
        self.meets_walls(walk, from, to)
    }

    /// The same of the walls alone.
    #[inline(always)]
    pub fn meets_walls(
        &mut self,
        walk: &mut Walk<Corner, true>,
        from: Corner,
        to: Corner,
    ) -> Option<Fraction> {
        let (from, to) = (from.map(i64::from), to.map(i64::from));
        let past = |corner: Edge, e: Edge, p: Edge| cross([p[0] - corner[0], p[1] - corner[1]], e);
        let walked = walk.pass(|walk, next| {
            let (corner, e) = (walk.corner, walk.edge(next));
            match self.misses(past(corner, e, from), past(corner, e, to)) {
                true => Break(()),
                false => Continue(()),
            }
        });
        walked.is_continue().then_some(self.enter)
    }

    /// Cuts it by a wall that its ends are so far past. Whether nothing is left, which is asked only if it was cut.
    #[inline(always)]
    fn misses(&mut self, from: i64, to: i64) -> bool {
        if from <= 0 && to <= 0 {
            return false;
        }
        if from > 0 && to > 0 {
            return true;
        }
        let at = (from.unsigned_abs(), from.abs_diff(to));
        if from > 0 {
            if !is_less(self.enter, at) {
                return false;
            }
            self.enter = at;
        } else {
            if !is_less(at, self.leave) {
                return false;
            }
            self.leave = at;
        }
        is_less(self.leave, self.enter)
    }

    /// Cuts it by the sides of the box about the grown obstacle. Whether nothing is left.
    #[inline(always)]
    pub fn misses_box(&mut self, [low, high]: [Corner; 2], from: Corner, to: Corner) -> bool {
        (0..2).any(|k| {
            let [from, to, low, high] = [from[k], to[k], low[k], high[k]].map(i64::from);
            self.misses(from - high, to - high) || self.misses(low - from, low - to)
        })
    }
}

/// Whether a fraction is less than another.
#[inline(always)]
pub fn is_less(f: Fraction, g: Fraction) -> bool {
    u128::from(f.0) * u128::from(g.1) < u128::from(g.0) * u128::from(f.1)
}

/// The greatest common divisor, by halving. The second number is above 0.
fn divisor(a: u64, b: u64) -> u64 {
    if a == 0 {
        return b;
    }
    let (mut x, mut y) = (a >> a.trailing_zeros(), b >> b.trailing_zeros());
    while x != y {
        let difference = x.abs_diff(y);
        (x, y) = (x.min(y), difference >> difference.trailing_zeros());
    }
    x << (a | b).trailing_zeros()
}

/// n/d of a way, rounded down: guessed in floating point, then set right.
fn millimetres(n: u64, d: u64, squared: u64) -> u64 {
    let square = |z: u64| u128::from(z) * u128::from(z);
    let (bottom, top) = (square(d), product(square(n), squared));
    let fits = |w: u64| product(bottom, w * w) <= top;
    let mut w = (n as f64 / d as f64 * (squared as f64).sqrt()) as u64;
    while !fits(w) {
        w -= 1;
    }
    while fits(w + 1) {
        w += 1;
    }
    w
}
