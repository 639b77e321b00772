//! Compares sums in parts: all parts of some, and parts from made up places.
use super::room::room;
use super::tally::Tally;
use super::written::corners;
use super::{Lent, on};
use crate::plain::{self, MOST, Place};
use crate::random::Random;
use crate::reply::Numbers;
use cocklesway::Walk;

/// The most parts of a sum that are asked for.
const PARTS: usize = 4;

/// Parts of a sum from its beginning on, each with one from a place nearby.
pub fn ask(tally: &mut Tally, random: &mut Random, a: Lent, b: Lent) -> Result<(), String> {
    let mut place = Place::BEGUN;
    for _ in 0..PARTS {
        let beside = near(random, place);
        ask_part(tally, random, a, b, beside)?;
        let answer = ask_part(tally, random, a, b, place)?;
        let [_, first, second, over, ..] = answer.values;
        if answer.refusal != 0 {
            return Ok(());
        }
        place = Place {
            first: first as usize,
            second: second as usize,
            over: over == 1,
        };
    }
    Ok(())
}

/// A place that is most often none of the sum.
fn near(random: &mut Random, place: Place) -> Place {
    match random.below(6) {
        0 => Place {
            over: !place.over,
            ..place
        },
        1 => Place {
            first: place.first.wrapping_sub(1),
            ..place
        },
        2 => Place {
            second: usize::MAX,
            ..place
        },
        3 => Place {
            first: place.first + 1,
            ..place
        },
        4 => Place {
            second: place.second + 1,
            ..place
        },
        _ => Place {
            first: random.below(6) as usize,
            second: random.below(6) as usize,
            over: random.below(8) == 0,
        },
    }
}

/// One part of any size, into an output of any room.
fn ask_part(
    tally: &mut Tally,
    random: &mut Random,
    a: Lent,
    b: Lent,
    place: Place,
) -> Result<Numbers, String> {
    let k = [0, 1, 2, 7, 300, usize::MAX][random.below(6) as usize];
    let needed = plain::part(a.0, a.1, b.0, b.1, place, k, &mut [0; 2 * MOST]).values[0];
    let mut out = vec![random.bits() as i32; room(random, 2 * needed as usize, 2 * MOST)];
    let mut other = out.clone();
    let by_hand = plain::part(a.0, a.1, b.0, b.1, place, k, &mut out);
    let walk = Walk::at(place.first, place.second, place.over);
    let by_proof = Numbers::of(walk.part(on(a), on(b), k, corners(&mut other)));
    let asked = (a, b, place, k, out.len());
    tally.add("part", asked, by_hand, by_proof)?;
    if out != other {
        return Err(format!("part of {asked:?}: the outputs differ"));
    }
    Ok(by_hand)
}
