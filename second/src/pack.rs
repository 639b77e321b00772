//! Packing a log into a second run of bytes. Ours, not of document 02.

use crate::log::records;
use crate::refusal::Refusal;
use std::collections::HashSet;

/// Packs a log with at most `most` stores; whether they were enough. The records are gone over from
/// the last to the first: one whose name was seen already is older.
pub fn pack(old: &[u8], new: &mut [u8], but: Option<u16>, most: usize) -> Result<bool, Refusal> {
    let mut seen: HashSet<u16> = but.into_iter().collect();
    let mut kept = records(old)?;
    kept.reverse();
    kept.retain(|&(name, _)| seen.insert(name));
    kept.reverse();
    let mut wanted: Vec<u8> = kept
        .iter()
        .flat_map(|&(_, record)| record)
        .copied()
        .collect();
    if wanted.len() > new.len() {
        return Err(Refusal::plain(16));
    }
    wanted.resize(new.len(), 0);
    let other: Vec<usize> = (0..new.len())
        .filter(|&place| new[place] != wanted[place])
        .collect();
    for &place in other.iter().take(most) {
        new[place] = wanted[place];
    }
    Ok(other.len() <= most)
}
