//! Compares the questions on a log.
use super::room::room;
use super::tally::Tally;
use super::written::corners;
use super::{Lent, on};
use crate::logs::{FLOORS, NAMES};
use crate::plain::{self, MOST};
use crate::random::Random;
use crate::reply::Numbers;
use cocklesway::{Book, log_contact, log_entry, log_gap, log_nearest, log_pack, log_read};

/// Reads names of a log, adds a shape, and reads again. Asks for a shape by its position, for the nearest one, for the
/// narrowest gap and for the first one on a drive.
pub fn ask(tally: &mut Tally, random: &mut Random, log: &[u8], shape: Lent) -> Result<(), String> {
    let name = random.below(NAMES) as u16;
    ask_read(tally, random, log, name)?;
    let added = ask_add(tally, random, log, name, shape)?;
    ask_read(tally, random, &added, name)?;
    ask_pack(tally, random, &added, name)?;
    for log in [log, &added] {
        ask_entry(tally, random, log)?;
        let floor = match random.below(8) {
            0 => shape.1,
            k => FLOORS[k as usize % 2].into(),
        };
        ask_nearest(tally, random, log, name, (shape.0, floor))?;
        ask_gap(tally, random, log, (shape.0, floor))?;
        ask_drive(tally, random, log, (shape.0, floor))?;
    }
    Ok(())
}

/// Asks for the shape at any position, into an output of any room.
fn ask_entry(tally: &mut Tally, random: &mut Random, log: &[u8]) -> Result<(), String> {
    let k = [0, 1, 2, 3, usize::MAX][random.below(5) as usize];
    let needed = 2 * plain::log_entry(log, k, &mut [0; 2 * MOST]).values[0] as usize;
    let mut out = vec![random.bits() as i32; room(random, needed, 2 * MOST)];
    let mut other = out.clone();
    let by_hand = plain::log_entry(log, k, &mut out);
    let by_proof = Numbers::of(log_entry(log, k, corners(&mut other)));
    tally.add("log_entry", (log, k), by_hand, by_proof)?;
    if out != other {
        return Err(format!("log_entry of {k} in {log:?}: the outputs differ"));
    }
    Ok(())
}

/// Asks for the nearest shape, at times without a name.
fn ask_nearest(
    tally: &mut Tally,
    random: &mut Random,
    log: &[u8],
    name: u16,
    shape: Lent,
) -> Result<(), String> {
    let but = (random.below(2) == 0).then_some(name);
    let point = [random.between(-9, 9), random.between(-9, 9)];
    for shape in [shape, (&point, shape.1)] {
        let by_hand = plain::log_nearest(log, shape.0, shape.1, but);
        let by_proof = Numbers::of(log_nearest(log, on(shape), but));
        tally.add("log_nearest", (log, shape, but), by_hand, by_proof)?;
    }
    Ok(())
}

/// Asks for the narrowest gap, of a cart that may be far from its origin, of a small one, and of a shape.
fn ask_gap(tally: &mut Tally, random: &mut Random, log: &[u8], shape: Lent) -> Result<(), String> {
    let reach = [9, 900_000][random.below(2) as usize];
    let point = [0; 2].map(|_: i32| random.between(-reach, reach));
    for cart in [(&point[..], shape.1), (&[0, 0, 3, 1, 1, 2], shape.1), shape] {
        let by_hand = plain::log_gap(log, cart.0, cart.1);
        let by_proof = Numbers::of(log_gap(log, on(cart)));
        tally.add("log_gap", (log, cart), by_hand, by_proof)?;
    }
    Ok(())
}

/// Drives small carts and a shape between places near the origin, across the range, or just out of it.
fn ask_drive(
    tally: &mut Tally,
    random: &mut Random,
    log: &[u8],
    shape: Lent,
) -> Result<(), String> {
    let reach = [9, 200, 1_000_000, 1_000_001][random.below(4) as usize];
    let [from, to] =
        [[0; 2]; 2].map(|place: [i32; 2]| place.map(|_| random.between(-reach, reach)));
    for cart in [
        (&[1, -1][..], shape.1),
        (&[0, 0, 3, 1, 1, 2], shape.1),
        shape,
    ] {
        let by_hand = plain::log_contact(log, cart.0, cart.1, from, to);
        let by_proof = Numbers::of(log_contact(log, on(cart), from, to));
        tally.add("log_contact", (log, cart, from, to), by_hand, by_proof)?;
    }
    Ok(())
}

/// Packs a log into a run that may hold anything, at times without a name.
fn ask_pack(tally: &mut Tally, random: &mut Random, log: &[u8], name: u16) -> Result<(), String> {
    let but = (random.below(2) == 0).then_some(name);
    let length = random.below(log.len() as u64 + 20) as usize;
    let mut ours: Vec<u8> = log.iter().copied().chain([0; 20]).take(length).collect();
    let mut theirs = ours.clone();
    let allowed = match random.below(3) {
        0 => random.below(40) as usize,
        1 => random.below(length as u64 + 1) as usize,
        _ => usize::MAX,
    };
    let asked = (log, length, but, allowed);
    let by_hand = plain::log_pack(log, &mut ours, but, allowed);
    let by_proof = Numbers::of(log_pack(log, &mut theirs, but, allowed));
    tally.add("log_pack", asked, by_hand, by_proof)?;
    if ours != theirs {
        return Err(format!("log_pack of {asked:?}: the runs differ"));
    }
    Ok(())
}

/// Reads a name into an output of any room.
fn ask_read(tally: &mut Tally, random: &mut Random, log: &[u8], name: u16) -> Result<(), String> {
    let needed = 2 * plain::log_read(log, name, &mut [0; 2 * MOST]).values[0] as usize;
    let mut out = vec![random.bits() as i32; room(random, needed, 2 * MOST)];
    let mut other = out.clone();
    let by_hand = plain::log_read(log, name, &mut out);
    let by_proof = Numbers::of(log_read(log, name, corners(&mut other)));
    tally.add("log_read", (log, name), by_hand, by_proof)?;
    if out != other {
        return Err(format!("log_read of {name} in {log:?}: the outputs differ"));
    }
    Ok(())
}

/// Adds a shape, and returns the log afterwards.
fn ask_add(
    tally: &mut Tally,
    random: &mut Random,
    log: &[u8],
    name: u16,
    shape: Lent,
) -> Result<Vec<u8>, String> {
    let allowed = match random.below(4) {
        0 => random.below(40) as usize,
        1 => random.below(2 * log.len() as u64 + 1) as usize,
        2 => 9 + 4 * shape.0.len() - random.below(2) as usize,
        _ => usize::MAX,
    };
    let (mut ours, mut theirs) = (log.to_vec(), log.to_vec());
    let by_hand = plain::log_add(&mut ours, name, shape.0, shape.1, allowed);
    let by_proof = Numbers::of(Book::new(&mut theirs).add(name, on(shape), allowed));
    let asked = (log, name, shape, allowed);
    tally.add("log_add", asked, by_hand, by_proof)?;
    if ours != theirs {
        return Err(format!("log_add of {asked:?}: the logs differ"));
    }
    Ok(ours)
}
