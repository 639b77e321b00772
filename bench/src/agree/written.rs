//! Compares the questions that write a shape.
use super::questions::{ask_one, ask_two};
use super::room::room;
use super::tally::Tally;
use super::{Lent, on};
use crate::plain::{self, MOST};
use crate::random::Random;
use crate::reply::Numbers;
use crate::shapes::List;
use cocklesway::{grow, merge, mirror, ring, sum, sweep};

/// A question that writes.
type Writes = fn(Lent, Lent, &mut [i32]) -> Numbers;

/// Its word, the plain one and the proved one.
type Written = (&'static str, Writes, Writes);

/// Those of two shapes, and the mirror image, for which the second is not read.
pub const QUESTIONS: [Written; 4] = [
    (
        "sum",
        |(a, f), (b, g), out| plain::sum(a, f, b, g, out),
        |a, b, out| Numbers::of(sum(on(a), on(b), corners(out))),
    ),
    (
        "merge",
        |(a, f), (b, g), out| plain::merge(a, f, b, g, out),
        |a, b, out| Numbers::of(merge(on(a), on(b), corners(out))),
    ),
    (
        "grow",
        |(a, f), (b, g), out| plain::grow(a, f, b, g, out),
        |a, b, out| Numbers::of(grow(on(a), on(b), corners(out))),
    ),
    (
        "mirror",
        |(a, f), _, out| plain::mirror(a, f, out),
        |a, _, out| Numbers::of(mirror(on(a), corners(out))),
    ),
];

/// The sweep, for which the second is not read.
pub const SWEEP: Written = (
    "sweep",
    |(points, f), _, out| plain::sweep(points, f, out),
    |points, _, out| Numbers::of(sweep(on(points), corners(out))),
);

/// The ring, for which the second is not read.
pub const RING: Written = (
    "ring",
    |(points, f), _, out| plain::ring(points, f, out),
    |points, _, out| Numbers::of(ring(on(points), corners(out))),
);

/// An output as the package takes it: a number that is left over holds no corner.
pub fn corners(out: &mut [i32]) -> &mut [[i32; 2]] {
    out.as_chunks_mut().0
}

/// A question that writes, into an output of any room; then others of what was written, since its rim meets that of
/// both shapes.
pub fn ask(
    tally: &mut Tally,
    random: &mut Random,
    (word, by_hand, by_proof): Written,
    a: Lent,
    b: Lent,
) -> Result<(), String> {
    let needed = 2 * by_hand(a, b, &mut [0; 2 * MOST]).values[0] as usize;
    let before = vec![random.bits() as i32; room(random, needed, 2 * MOST)];
    let (mut out, mut other): (List, List) = (before.clone(), before);
    let (one, two) = (by_hand(a, b, &mut out), by_proof(a, b, &mut other));
    tally.add(word, [a, b], one, two)?;
    if out != other {
        return Err(format!("{word} of {a:?} and {b:?}: the outputs differ"));
    }
    if one.refusal == 0 {
        let written: Lent = (&out[..2 * one.values[0] as usize], one.values[1] as u32);
        ask_one(tally, written)?;
        ask_two(tally, a, written)?;
        ask_two(tally, written, b)?;
    }
    Ok(())
}
