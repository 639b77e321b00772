//! Compares the plain and the proved calls of a host: their numbers, and the whole outputs.
use super::Lent;
use super::room::room;
use super::tally::Tally;
use crate::plain::{self, MOST};
use crate::random::Random;
use crate::reply::Numbers;
use crate::shapes::bytes_of;
use cocklesway::bytes;

/// A list as bytes, and its floor.
type LentBytes<'a> = (&'a [u8], u32);

/// A call that writes.
type Writes = fn(LentBytes, LentBytes, &mut [u8]) -> u64;

/// Those that write: word, plain and proved.
const WRITTEN: [(&str, Writes, Writes); 2] = [
    (
        "sum_bytes",
        |(a, f), (b, g), out| plain::sum_bytes(a, f, b, g, out),
        |(a, f), (b, g), out| bytes::sum(a, f, b, g, out).number(),
    ),
    (
        "merge_bytes",
        |(a, f), (b, g), out| plain::merge_bytes(a, f, b, g, out),
        |(a, f), (b, g), out| bytes::merge(a, f, b, g, out).number(),
    ),
];

/// All calls on two lists, which at times lack some bytes.
pub fn ask(tally: &mut Tally, random: &mut Random, a: Lent, b: Lent) -> Result<(), String> {
    let (first, second) = (cut(random, bytes_of(a.0)), cut(random, bytes_of(b.0)));
    let (a, b): (LentBytes, LentBytes) = ((&first, a.1), (&second, b.1));
    for lent in [a, b] {
        let by_hand = plain::judge_bytes(lent.0, lent.1);
        let by_proof = bytes::judge(lent.0, lent.1).number();
        add(tally, "judge_bytes", [lent, lent], by_hand, by_proof)?;
    }
    let by_hand = plain::relation_bytes(a.0, a.1, b.0, b.1);
    let by_proof = bytes::relation(a.0, a.1, b.0, b.1).number();
    add(tally, "relation_bytes", [a, b], by_hand, by_proof)?;
    for (word, by_hand, by_proof) in WRITTEN {
        let needed = Numbers::unpacked(by_hand(a, b, &mut [0; 8 * MOST])).values[0];
        let mut out = vec![random.bits() as u8; room(random, 8 * needed as usize, 8 * MOST)];
        let mut other = out.clone();
        let (one, two) = (by_hand(a, b, &mut out), by_proof(a, b, &mut other));
        add(tally, word, [a, b], one, two)?;
        if out != other {
            return Err(format!("{word} of {a:?} and {b:?}: the outputs differ"));
        }
    }
    Ok(())
}

/// Counts one call, or tells that its numbers differ.
fn add(
    tally: &mut Tally,
    word: &'static str,
    asked: [LentBytes; 2],
    plain: u64,
    proved: u64,
) -> Result<(), String> {
    tally.add(
        word,
        asked,
        Numbers::unpacked(plain),
        Numbers::unpacked(proved),
    )
}

/// Some bytes less, at times.
fn cut(random: &mut Random, mut bytes: Vec<u8>) -> Vec<u8> {
    if random.below(32) == 0 {
        bytes.truncate(bytes.len().saturating_sub(1 + random.below(8) as usize));
    }
    bytes
}
