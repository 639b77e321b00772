//! Two obstacles and a cart's outline: the obstacles just so far apart that the cart passes or does not,
//! or anywhere; and some that are too large or out of range when they are grown.

use super::dice::Dice;
use super::edges::along;
use super::shapes::{self, moved, vector};
use super::{apart, pairs};
use crate::combine::{all_sums, mirror};
use crate::plane::Shape;

/// The left obstacle, the right one, and the cart.
pub fn three(dice: &mut Dice) -> [Shape; 3] {
    let (left, right, cart) = match dice.below(10) {
        0 => large(dice),
        1 => {
            let (left, right) = apart::near(dice);
            (left, right, shapes::any(dice))
        }
        2..5 => {
            let (left, right) = apart::near(dice);
            (left, right, shapes::small(dice))
        }
        _ => narrow(dice),
    };
    if dice.one_in(2) {
        [left, right, cart]
    } else {
        [right, left, cart]
    }
}

/// The right obstacle is moved until it is just past the left one, both grown.
fn narrow(dice: &mut Dice) -> (Shape, Shape, Shape) {
    let (left, right) = apart::near(dice);
    let cart = match dice.below(4) {
        0 => shapes::mostly_small(dice),
        _ => shapes::small(dice),
    };
    let image = mirror(&cart);
    let (left_grown, right_grown) = (all_sums(&left, &image), all_sums(&right, &image));
    let size = dice.between(1, 9);
    let step = along(vector(dice, size));
    let past = apart::away(dice, &left_grown, &right_grown, step);
    let right = moved(&right, past[0] - right_grown[0]);
    (left, right, cart)
}

/// One obstacle grown has about as many corners as a shape may have, or ends about where the range does.
fn large(dice: &mut Dice) -> (Shape, Shape, Shape) {
    let (left, image) = pairs::for_sum(dice);
    let right = shapes::mostly_small(dice);
    (left, right, mirror(&image))
}
