//! What growing is for: a cart at a place is to the obstacle as the place is to the grown one.

use super::*;
use crate::make::dice::Dice;
use crate::plane::point;
use crate::separation::relation;

fn small_shape(dice: &mut Dice) -> Shape {
    let count = dice.between(1, 5);
    let points = (0..count).map(|_| point(dice.between(-3, 3), dice.between(-3, 3)));
    hull_of(points.collect())
}

#[test]
fn carts_stand_as_their_places() {
    let mut dice = Dice::new(27);
    for _ in 0..100 {
        let (obstacle, cart) = (small_shape(&mut dice), small_shape(&mut dice));
        let grown = grow(&obstacle, &cart).unwrap();
        for place in (-8..=8).flat_map(|x| (-8..=8).map(move |y| point(x, y))) {
            let moved: Shape = cart.iter().map(|&c| c + place).collect();
            let stands = relation(&moved, &obstacle);
            assert_eq!(stands, relation(&[place], &grown), "{cart:?} at {place:?}");
        }
    }
}

#[test]
fn growing_is_the_sum_with_the_mirrored_cart() {
    let mut dice = Dice::new(28);
    for _ in 0..500 {
        let (obstacle, cart) = (small_shape(&mut dice), small_shape(&mut dice));
        assert_eq!(grow(&obstacle, &cart), sum(&obstacle, &mirror(&cart)));
    }
}
