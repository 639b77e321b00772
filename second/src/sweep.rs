//! The sweep of document 02, W10: the shape of many points, straight from the meaning of a corner.

use crate::hull::hull_by_meaning;
use crate::judge::{corners_in, in_range};
use crate::plane::{Point, Shape};
use crate::refusal::{MOST_POINTS, Refusal};

/// The points of the list, or refusal 1, 2 or 3; repeats are counted. A sweep has one list, so they
/// mean shape 1.
pub fn judged(list: &[i32]) -> Result<Vec<Point>, Refusal> {
    if list.is_empty() || list.len() % 2 == 1 {
        return Err(Refusal::of_shape(1, 1));
    }
    if list.len() / 2 > MOST_POINTS {
        return Err(Refusal::of_shape(2, 1));
    }
    let points = corners_in(list);
    if !points.iter().all(in_range) {
        return Err(Refusal::of_shape(3, 1));
    }
    Ok(points)
}

/// The shape of these points. Its corners are some of them, so that 6 and 7 cannot come.
pub fn shape(points: Vec<Point>) -> Shape {
    hull_by_meaning(points)
}

#[cfg(test)]
mod tests {
    use super::*;
    use crate::combine::merge;
    use crate::make::dice::Dice;
    use crate::make::{pairs, points};

    #[test]
    fn any_order_gives_the_same_shape() {
        let mut dice = Dice::new(21);
        for _ in 0..300 {
            let points = points::cloud(&mut dice);
            let mixed = dice.draw(&points, points.len());
            assert_eq!(shape(points), shape(mixed));
        }
    }

    #[test]
    fn corners_of_two_shapes_give_their_merge() {
        let mut dice = Dice::new(22);
        for _ in 0..300 {
            let (a, b) = pairs::any(&mut dice);
            if let Ok(merged) = merge(&a, &b)
                && a.len() + b.len() <= MOST_POINTS
            {
                assert_eq!(shape([a, b].concat()), merged);
            }
        }
    }
}
