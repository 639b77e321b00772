//! The log of shapes (document 02, W5: the floor book, and W11): records in a lent run of bytes.
//!
//! 02 leaves open in which order an addition makes its stores; here it is as the library has it
//! (docs/DECISIONS.md), so that logs of cut additions can be compared byte by byte.

use crate::judge::judge;
use crate::plane::Shape;
use crate::refusal::Refusal;

/// The last byte of every record.
const LAST: u8 = 0x5A;

/// A byte and the place that it goes to.
pub type Store = (usize, u8);

/// What a record holds.
pub struct Entry {
    pub name: u16,
    pub floor: u16,
    pub shape: Shape,
}

/// The latest shape of the name and its floor; 15 and then 19 refuse it.
pub fn read(log: &[u8], name: u16) -> Result<(Shape, u16), Refusal> {
    let (held, _) = entries(log)?;
    let latest = held.into_iter().rev().find(|entry| entry.name == name);
    latest
        .map(|entry| (entry.shape, entry.floor))
        .ok_or(Refusal::plain(19))
}

/// The latest record of every name, in the log's order, or 15: no later one has the name.
pub fn current(log: &[u8]) -> Result<Vec<Entry>, Refusal> {
    let (held, _) = entries(log)?;
    let names: Vec<u16> = held.iter().map(|entry| entry.name).collect();
    let is_latest = |&(place, _): &(usize, Entry)| !names[place + 1..].contains(&names[place]);
    let latest = held.into_iter().enumerate().filter(is_latest);
    Ok(latest.map(|(_, entry)| entry).collect())
}

/// Adds a shape on a floor with at most `allowed` stores; whether that finished.
pub fn add(
    log: &mut [u8],
    name: u16,
    floor: u16,
    list: &[i32],
    most: usize,
) -> Result<bool, Refusal> {
    add_by(stores, log, name, floor, list, most)
}

/// The same by any rule that says which stores bring a record after the end.
pub fn add_by(
    stores: fn(&[u8], usize, &[u8]) -> Vec<Store>,
    log: &mut [u8],
    name: u16,
    floor: u16,
    list: &[i32],
    most: usize,
) -> Result<bool, Refusal> {
    judge(list, 1)?;
    let (_, end) = entries(log)?;
    let record = record(name, floor, list);
    if log.len() - end < record.len() {
        return Err(Refusal::plain(16));
    }
    let stores = stores(log, end, &record);
    for &(place, byte) in stores.iter().take(most) {
        log[place] = byte;
    }
    Ok(stores.len() <= most)
}

/// A record as it is written (W11): kind 2, name, floor, corners.
pub fn record(name: u16, floor: u16, list: &[i32]) -> Vec<u8> {
    framed(&[2, name, floor], list)
}

/// A record from before there were floors: kind 1, name, corners.
pub fn old_record(name: u16, list: &[i32]) -> Vec<u8> {
    framed(&[1, name], list)
}

/// Length of what follows, some numbers of two bytes, corners, the last byte.
fn framed(front: &[u16], list: &[i32]) -> Vec<u8> {
    let corners = list.iter().flat_map(|number| number.to_le_bytes());
    let mut counted: Vec<u8> = front
        .iter()
        .flat_map(|number| number.to_le_bytes())
        .collect();
    counted.extend(corners);
    counted.push(LAST);
    [&(counted.len() as u16).to_le_bytes()[..], &counted].concat()
}

/// Where the last whole record ends.
pub fn end(log: &[u8]) -> usize {
    let mut end = 0;
    while let Some(counted) = whole(&log[end..]) {
        end += 2 + counted.len();
    }
    end
}

/// A torn end is cleared from the far end down, where it is not 0 already; then the record is
/// stored from its first byte up.
fn stores(log: &[u8], end: usize, record: &[u8]) -> Vec<Store> {
    let torn = (end..log.len()).rev().filter(|&place| log[place] != 0);
    let clears = torn.map(|place| (place, 0));
    clears.chain((end..).zip(record.iter().copied())).collect()
}

/// What all whole records hold, and where the last ends; or 15 with the place of the first that is
/// bad.
fn entries(log: &[u8]) -> Result<(Vec<Entry>, usize), Refusal> {
    let mut held = Vec::new();
    let mut place = 0;
    while let Some(counted) = whole(&log[place..]) {
        held.push(entry(counted).ok_or(Refusal::damaged(place))?);
        place += 2 + counted.len();
    }
    Ok((held, place))
}

/// The name and the bytes of every whole record, or 15.
pub fn records(log: &[u8]) -> Result<Vec<(u16, &[u8])>, Refusal> {
    let (held, end) = entries(log)?;
    let mut rest = &log[..end];
    let mut named = Vec::new();
    for entry in held {
        let counted = whole(rest).expect("a record that was read");
        let (record, behind) = rest.split_at(2 + counted.len());
        named.push((entry.name, record));
        rest = behind;
    }
    Ok(named)
}

/// What the length at the front counts, if a record is whole there: a length of 0 counts no
/// last byte.
fn whole(rest: &[u8]) -> Option<&[u8]> {
    let (length, behind) = rest.split_first_chunk()?;
    let counted = behind.get(..usize::from(u16::from_le_bytes(*length)))?;
    counted.ends_with(&[LAST]).then_some(counted)
}

/// What a record holds, unless its kind is neither 1 nor 2, its length wrong for the kind or its
/// corners no shape. A record of kind 1 is on floor 0.
fn entry(counted: &[u8]) -> Option<Entry> {
    let (kind, behind) = two_bytes(counted)?;
    let (name, behind) = two_bytes(behind)?;
    let (floor, behind) = match kind {
        1 => (0, behind),
        2 => two_bytes(behind)?,
        _ => return None,
    };
    let corners = behind.strip_suffix(&[LAST])?;
    if !corners.len().is_multiple_of(8) {
        return None;
    }
    let (numbers, _) = corners.as_chunks();
    let list: Vec<i32> = numbers
        .iter()
        .map(|four| i32::from_le_bytes(*four))
        .collect();
    let shape = judge(&list, 1).ok()?;
    Some(Entry { name, floor, shape })
}

/// The number that the first two bytes hold, the low one first, and what comes after them.
fn two_bytes(bytes: &[u8]) -> Option<(u16, &[u8])> {
    let (number, behind) = bytes.split_first_chunk()?;
    Some((u16::from_le_bytes(*number), behind))
}

#[cfg(test)]
mod tests;
