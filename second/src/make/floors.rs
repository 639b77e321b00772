//! Floors before the lists of a question: mostly one floor for all of them, at times different ones,
//! said or left out, and some that are just past the ends of their range.

use super::dice::Dice;
use super::{List, list_text};

/// Few, so that they come back; some hold the last byte of a record.
const FLOORS: [u16; 6] = [1, 2, 0x5A, 0x5A5A, 0x5A00, 65_535];

const WRONG: &[&str] = &["@", "@65536", "@70000", "@-1", "@x", "@1@1", "@ 1"];

pub fn any(dice: &mut Dice) -> u16 {
    match dice.below(8) {
        0 => dice.below(1 << 16) as u16,
        1..4 => 0,
        _ => dice.pick(&FLOORS),
    }
}

/// The texts of lists, each after its floor.
pub fn texts(dice: &mut Dice, lists: &[List]) -> Vec<String> {
    let floor = any(dice);
    let differ = dice.one_in(10);
    let mut text = |list: &List| {
        let own = if differ { any(dice) } else { floor };
        let list = list_text(list);
        match dice.below(100) {
            0 => format!("{} {list}", dice.pick(WRONG)),
            1..20 => format!("@{own} {list}"),
            _ => before(own, &list),
        }
    };
    lists.iter().map(&mut text).collect()
}

/// The text of a list after its floor, which is left out if it is 0.
pub fn before(floor: u16, list: &str) -> String {
    match floor {
        0 => list.to_string(),
        _ => format!("@{floor} {list}"),
    }
}
