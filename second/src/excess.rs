//! How far a changed shape reaches beyond the old one: every corner of the new shape against every
//! corner and every edge of the old one.
//!
//! A corner that is to the right of no edge, or lies on a point or a segment, is at distance 0.

use crate::plane::{Point, dot, edge_ends, squared_distance, turn};
use crate::separation::inside;

#[derive(Clone, Copy, Debug, PartialEq, Eq)]
pub struct Excess {
    /// The first corner of the new shape that none is further than.
    pub corner: usize,
    pub place: Place,
    /// The distance, rounded up.
    pub up: i128,
}

/// Where the old shape is nearest: a corner, or inside an edge.
#[derive(Clone, Copy, Debug, PartialEq, Eq)]
pub enum Place {
    Corner { j: usize, d: i128 },
    Edge { e: usize, t: i128, q: i128 },
}

/// Nothing if the new shape is inside the old one.
pub fn excess(new: &[Point], old: &[Point]) -> Option<Excess> {
    let outside = |&c: &usize| !inside(&new[c..=c], old);
    let far = |c: usize| (c, place(new[c], old));
    let all = (0..new.len()).filter(outside).map(far);
    let (corner, place) = all.reduce(|best, next| {
        let ((top, bottom), (n, m)) = (best.1.squared(), next.1.squared());
        if top * m < n * bottom { next } else { best }
    })?;
    let up = rounded_up(place.squared());
    Some(Excess { corner, place, up })
}

impl Place {
    /// The squared distance, top and bottom.
    pub fn squared(self) -> (i128, i128) {
        match self {
            Place::Corner { d, .. } => (d, 1),
            Place::Edge { t, q, .. } => (t * t, q),
        }
    }
}

/// The first of the least: corners go first.
fn place(c: Point, old: &[Point]) -> Place {
    let corner = |j: usize| Place::Corner {
        j,
        d: squared_distance(c, old[j]),
    };
    let edge = |e: usize| {
        let (from, to) = edge_ends(old, e);
        let (t, q) = (turn(from, to, c).abs(), squared_distance(from, to));
        let along = dot(to - from, c - from);
        (0 < along && along < q).then_some(Place::Edge { e, t, q })
    };
    let all = (0..old.len()).map(corner);
    let all = all.chain((0..old.len()).filter_map(edge));
    let nearer = |best: Place, next: Place| {
        let ((top, bottom), (n, m)) = (best.squared(), next.squared());
        if n * bottom < top * m { next } else { best }
    };
    all.reduce(nearer).expect("a shape has a corner")
}

/// The least e with top at most e·e·bottom. No two points are further apart than 3 km.
fn rounded_up((top, bottom): (i128, i128)) -> i128 {
    let (mut low, mut high) = (0, 3_000_000);
    while low < high {
        let e = (low + high) / 2;
        if top <= e * e * bottom {
            high = e;
        } else {
            low = e + 1;
        }
    }
    low
}

#[cfg(test)]
mod tests {
    use super::{Place, excess};
    use crate::make::dice::Dice;
    use crate::make::pairs;
    use crate::plane::{Point, dot, edge_ends, point, value};

    fn support(shape: &[Point], d: Point) -> i128 {
        let values = shape.iter().map(|&p| value(d, p));
        values.max().expect("a shape has a corner")
    }

    /// In no direction of a box does the new shape reach further, and in its own it does.
    #[test]
    fn no_direction_moves_further() {
        let mut dice = Dice::new(41);
        for _ in 0..2_000 {
            let (new, old) = pairs::any(&mut dice);
            let in_range = |p: &Point| p.x.abs().max(p.y.abs()) <= 1_000_000;
            if !new.iter().chain(&old).all(in_range) {
                continue;
            }
            let found = excess(&new, &old);
            let (top, bottom) = found.map_or((0, 1), |found| found.place.squared());
            let ahead = |d: Point| (support(&new, d) - support(&old, d)).max(0);
            for (x, y) in (-6..=6).flat_map(|x| (-6..=6).map(move |y| (x, y))) {
                let d = point(x, y);
                let far = ahead(d);
                assert!(far * far * bottom <= top * dot(d, d));
            }
            let Some(found) = found else {
                continue;
            };
            let c = new[found.corner];
            let (d, far) = match found.place {
                Place::Corner { j, d } => (c - old[j], d),
                Place::Edge { e, t, .. } => {
                    let (from, to) = edge_ends(&old, e);
                    let left = (to - from).quarter_turned();
                    let outward = if dot(left, c - from) < 0 { -left } else { left };
                    (outward, t)
                }
            };
            assert_eq!(ahead(d), far);
        }
    }
}
