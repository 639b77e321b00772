//! Directions that a caller gives (document 01, refusal 11; document 02, W12), and those in which one
//! shape is below another (W13): every corner of the first against every corner of the second.

use crate::plane::{Point, divisor, point, value};
use crate::refusal::{MOST_DIRECTION, Refusal};
use crate::separation::{candidates, gap};

/// 11, then 12.
pub fn judge(direction: Point) -> Result<(), Refusal> {
    let within = |part: i64| (-MOST_DIRECTION..=MOST_DIRECTION).contains(&part);
    let nowhere = direction.x == 0 && direction.y == 0;
    if nowhere || !within(direction.x) || !within(direction.y) {
        return Err(Refusal::plain(11));
    }
    if divisor(direction.x, direction.y) > 1 {
        return Err(Refusal::plain(12));
    }
    Ok(())
}

/// Whether every corner of the first is strictly below every corner of the second.
pub fn below(a: &[Point], b: &[Point], d: Point) -> bool {
    let under = |p: Point| b.iter().all(|&q| value(d, p) < value(d, q));
    a.iter().all(|&p| under(p))
}

/// A direction in which the first is below the second, over the divisor of its parts; none if no
/// candidate has a gap, and then no direction at all has one.
pub fn found(a: &[Point], b: &[Point]) -> Option<Point> {
    let d = candidates(a, b).into_iter().find(|&d| gap(a, b, d) > 0)?;
    let common = divisor(d.x, d.y);
    Some(point(d.x / common, d.y / common))
}

#[cfg(test)]
mod tests {
    use super::*;
    use crate::make::{apart, dice::Dice, pairs};
    use crate::refusal::MOST_COORDINATE;
    use crate::separation::{Relation, relation};

    /// "For any shapes apart .. an acceptable direction exists"; "or says none if they are not apart".
    #[test]
    fn shapes_apart_have_a_direction_and_others_none() {
        let mut dice = Dice::new(31);
        for round in 0..4000 {
            let (a, b) = match round % 2 {
                0 => apart::mostly(&mut dice),
                _ => pairs::any(&mut dice),
            };
            let far = |c: &Point| c.x.abs().max(c.y.abs()) > MOST_COORDINATE;
            if a.iter().chain(&b).any(far) {
                continue;
            }
            let found = found(&a, &b);
            assert_eq!(found.is_some(), relation(&a, &b) == Relation::Apart);
            if let Some(d) = found {
                assert!(judge(d).is_ok() && below(&a, &b, d), "{a:?} {b:?} {d:?}");
            }
        }
    }

    /// "Whoever offered it, acceptance means apart."
    #[test]
    fn acceptance_means_apart() {
        let mut dice = Dice::new(32);
        for _ in 0..4000 {
            let (a, b) = pairs::any(&mut dice);
            let d = point(dice.between(-3, 3), dice.between(-3, 3));
            assert!(!below(&a, &b, d) || relation(&a, &b) == Relation::Apart);
        }
    }
}
