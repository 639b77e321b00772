//! An obstacle, a cart's outline and a straight drive: through the grown obstacle, along its edges, by its
//! corners, just up to it, from inside it, past it, of no length, and out of range.

use super::dice::Dice;
use super::edges::along;
use super::fields::damaged_at_times;
use super::floors::texts;
use super::pairs::{self, spot};
use super::shapes::{self, vector};
use super::{shape_text, tails};
use crate::combine::{all_sums, mirror};
use crate::judge::in_range;
use crate::plane::{Point, Shape, edge_ends, point};
use crate::refusal::MOST_COORDINATE;

pub fn contact(dice: &mut Dice) -> Vec<String> {
    let (obstacle, image) = match dice.below(12) {
        0 => pairs::for_large_sum(dice),
        1 => pairs::for_sum(dice),
        2 => (shapes::any(dice), shapes::mostly_small(dice)),
        3..6 => (shapes::mostly_small(dice), shapes::small(dice)),
        6 => (shapes::small(dice), vec![point(0, 0)]),
        _ => (shapes::small(dice), shapes::small(dice)),
    };
    let (from, to) = drive(dice, &all_sums(&obstacle, &image));
    let lists = damaged_at_times(dice, &[obstacle, mirror(&image)], 24);
    let mut fields = texts(dice, &lists);
    fields.extend([from, to].map(|place| shape_text(&[place])));
    fields
}

/// Where the cart's place begins and where it ends.
pub fn drive(dice: &mut Dice, grown: &Shape) -> (Point, Point) {
    let (from, to) = match dice.below(20) {
        0 => {
            let place = spot(dice, grown);
            (place, place)
        }
        1 => (past_the_range(dice), spot(dice, grown)),
        2..5 => across(dice, grown),
        5..9 => beside_an_edge(dice, grown),
        _ => through(dice, grown),
    };
    let (from, to) = if dice.one_in(3) {
        (to, from)
    } else {
        (from, to)
    };
    if tails::fits(from) && tails::fits(to) {
        (from, to)
    } else {
        (grown[0], point(0, 0))
    }
}

/// Up to a point at or near the rim, and on by as much or as little.
fn through(dice: &mut Dice, grown: &Shape) -> (Point, Point) {
    let at = spot(dice, grown);
    let size = dice.pick(&[1, 3, 9, 1000]);
    let step = vector(dice, size);
    let (before, after) = (dice.between(0, 9), dice.pick(&[-1, 0, 0, 1, 2, 7]));
    (at - step * before, at + step * after)
}

/// Along the line of an edge, or one step off.
fn beside_an_edge(dice: &mut Dice, grown: &Shape) -> (Point, Point) {
    let (start, end) = edge_ends(grown, dice.below(grown.len()));
    let step = along(end - start) * dice.pick(&[-1, 1]);
    let mut at = dice.pick(&[start, end]);
    if dice.one_in(3) {
        at = at + vector(dice, 1);
    }
    (
        at - step * dice.between(-1, 9),
        at + step * dice.between(-2, 9),
    )
}

/// From one end of the range, by a point at the rim or anywhere, far on.
fn across(dice: &mut Dice, grown: &Shape) -> (Point, Point) {
    let most = MOST_COORDINATE;
    let from = point(dice.pick(&[-most, most]), dice.between(-most, most));
    let at = spot(dice, grown);
    let to = at * 2 - from;
    if in_range(&to) && dice.one_in(2) {
        return (from, to);
    }
    (from, point(-from.x, dice.between(-most, most)))
}

fn past_the_range(dice: &mut Dice) -> Point {
    let far = dice.pick(&[MOST_COORDINATE + 1, i64::from(i32::MAX)]);
    let place = point(dice.pick(&[far, -far]), dice.between(-far, far));
    if dice.one_in(2) {
        place.quarter_turned()
    } else {
        place
    }
}
