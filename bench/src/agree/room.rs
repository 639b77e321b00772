//! How much room is lent for an answer.
use crate::random::Random;

/// Enough, as much as is needed, a bit less or more, or any less.
pub fn room(random: &mut Random, needed: usize, enough: usize) -> usize {
    match random.below(8) {
        0 => needed,
        1 => needed.saturating_sub(1),
        2 => random.below(needed as u64 + 1) as usize,
        3 => needed + 1,
        _ => enough,
    }
}
