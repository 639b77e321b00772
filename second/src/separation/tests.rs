//! Relation and inside against their definitions, word for word, over all directions of a box.
//!
//! The corners lie in 0..=4, so differences have parts up to 4. The directions that keep a gap of 0
//! or more form a cone whose borders are normals of differences; the sum of the two borders, or a
//! difference itself, is inside the cone if anything is. So parts up to 8 are enough.

use super::*;
use crate::hull::{hull_of, some_direction_above};
use crate::make::dice::Dice;
use crate::plane::Shape;

const MOST_PART: i64 = 8;

fn small_shape(dice: &mut Dice) -> Shape {
    let count = dice.between(1, 5);
    let points = (0..count).map(|_| point(dice.between(0, 4), dice.between(0, 4)));
    hull_of(points.collect())
}

fn box_directions() -> impl Iterator<Item = Point> {
    (-MOST_PART..=MOST_PART).flat_map(|u| (-MOST_PART..=MOST_PART).map(move |v| point(u, v)))
}

fn relation_by_box(a: &[Point], b: &[Point]) -> Relation {
    let others = || box_directions().filter(|&d| d != point(0, 0));
    if box_directions().any(|d| gap(a, b, d) > 0) {
        Relation::Apart
    } else if others().any(|d| gap(a, b, d) >= 0) {
        Relation::Touching
    } else {
        Relation::Overlapping
    }
}

fn inside_by_box(a: &[Point], b: &[Point]) -> bool {
    let greatest = |shape: &[Point], d| shape.iter().map(|&p| value(d, p)).max();
    box_directions().all(|d| greatest(a, d) <= greatest(b, d))
}

#[test]
fn relation_and_inside_agree_with_all_directions_of_a_box() {
    let mut dice = Dice::new(3);
    for _ in 0..6000 {
        let (a, b) = (small_shape(&mut dice), small_shape(&mut dice));
        assert_eq!(relation(&a, &b), relation_by_box(&a, &b), "{a:?} {b:?}");
        assert_eq!(inside(&a, &b), inside_by_box(&a, &b), "{a:?} {b:?}");
    }
}

#[test]
fn apart_exactly_if_all_differences_lie_in_an_open_half_plane() {
    let mut dice = Dice::new(4);
    for _ in 0..3000 {
        let (a, b) = crate::make::pairs::any(&mut dice);
        if a.len() * b.len() > 20_000 {
            continue;
        }
        let pairs = a.iter().flat_map(|&p| b.iter().map(move |&q| q - p));
        let apart = some_direction_above(&pairs.collect::<Vec<Point>>());
        assert_eq!(relation(&a, &b) == Relation::Apart, apart, "{a:?} {b:?}");
    }
}

#[test]
fn relation_is_symmetric() {
    let mut dice = Dice::new(5);
    for _ in 0..2000 {
        let (a, b) = crate::make::pairs::any(&mut dice);
        assert_eq!(relation(&a, &b), relation(&b, &a));
    }
}
