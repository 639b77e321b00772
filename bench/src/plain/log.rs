//! The log of shapes by name: one pass over its records, whose corners are judged as they are stored.
use super::corner::{Bytes, Corner, Stored, corners_in, room_of};
use super::judge::{MOST, Shape, admitted, shape};
use crate::reply::Numbers;

/// The last byte of a record.
const LAST: u8 = 0x5A;

/// The kind of a record that says its floor: the one that is written.
const FLOORED: u16 = 2;

/// The kind of a record that says none, and is on floor 0.
const PLAIN: u16 = 1;

/// The bytes of a record besides its corners: length, kind, name, floor and last byte.
const FIXED: usize = 9;

/// Writes the latest shape of a name, and answers its corners and floor.
#[inline(never)]
pub fn log_read(log: &[u8], name: u16, out: &mut [i32]) -> Numbers {
    let mut latest = None;
    let surveyed = survey(log, |record| {
        if record.name == name {
            latest = Some(record);
        }
    });
    let record = match (surveyed, latest) {
        (Err(refusal), _) => return refusal,
        (Ok(_), None) => return Numbers::refused(19),
        (Ok(_), Some(record)) => record,
    };
    match record.write(out) {
        Some(count) => Numbers::one(count, record.floor),
        None => Numbers::refused(8),
    }
}

/// Writes the current shape at a position, and answers its corners, name and floor.
#[inline(never)]
pub fn log_entry(log: &[u8], k: usize, out: &mut [i32]) -> Numbers {
    let mut records = Vec::new();
    if let Err(refusal) = survey(log, |record| records.push(record)) {
        return refusal;
    }
    let current: Vec<&Record> = current(&records).collect();
    let Some(record) = current.iter().rev().nth(k) else {
        return Numbers::refused(20);
    };
    match record.write(out) {
        Some(count) => Numbers::all([count, record.name.into(), record.floor.into()]),
        None => Numbers::refused(8),
    }
}

/// Adds a shape under a name with at most `allowed` stores of single bytes. 1 if it finished, 0 if it was cut.
#[inline(never)]
pub fn log_add(log: &mut [u8], name: u16, list: &[i32], floor: u32, allowed: usize) -> Numbers {
    match admitted(list, floor).and_then(|_| survey(log, |_| ())) {
        Ok(end) if log.len() - end < FIXED + 4 * list.len() => Numbers::refused(16),
        Ok(end) => Numbers::all([add(&mut log[end..], name, list, floor, allowed) as u64]),
        Err(refusal) => refusal,
    }
}

/// Packs the latest records of a log into a second run of bytes, without those of a name, with at most `allowed` stores
/// of single bytes. 1 if it finished, 0 if it was cut.
#[inline(never)]
pub fn log_pack(old: &[u8], new: &mut [u8], but: Option<u16>, allowed: usize) -> Numbers {
    let mut records = Vec::new();
    if let Err(refusal) = survey(old, |record| records.push(record.name)) {
        return refusal;
    }
    let mut seen = [0u64; 1024];
    if let Some(name) = but {
        is_first(&mut seen, name);
    }
    let mut kept = vec![false; records.len()];
    for (kept, &name) in kept.iter_mut().zip(&records).rev() {
        *kept = is_first(&mut seen, name);
    }
    let current = || kept_parts(old, &kept);
    let count: usize = current().map(<[u8]>::len).sum();
    if new.len() < count {
        return Numbers::refused(16);
    }
    let wanted = current().flatten().copied().chain(std::iter::repeat(0));
    let mut need = 0;
    for (to, byte) in new.iter_mut().zip(wanted) {
        if *to != byte {
            if need < allowed {
                *to = byte;
            }
            need += 1;
        }
    }
    Numbers::all([u64::from(need <= allowed)])
}

/// The current ones of all records of a log, the last first.
#[inline(always)]
pub fn current<'r, 'a>(records: &'r [Record<'a>]) -> impl Iterator<Item = &'r Record<'a>> {
    let mut seen = [0u64; 1024];
    let records = records.iter().rev();
    records.filter(move |record| is_first(&mut seen, record.name))
}

/// Marks a name, and returns whether it was not marked before.
#[inline(always)]
fn is_first(seen: &mut [u64; 1024], name: u16) -> bool {
    let (word, bit) = (usize::from(name / 64), 1 << (name % 64));
    let first = seen[word] & bit == 0;
    seen[word] |= bit;
    first
}

/// The bytes of the records that are kept.
#[inline(always)]
fn kept_parts<'a>(log: &'a [u8], kept: &[bool]) -> impl Iterator<Item = &'a [u8]> {
    let mut rest = log;
    kept.iter().filter_map(move |&kept| {
        let (part, behind) = rest.split_at(2 + whole(rest)?.len());
        rest = behind;
        kept.then_some(part)
    })
}

/// What a record says.
pub struct Record<'a> {
    pub name: u16,
    pub floor: u16,
    pub shape: Shape<'a, Bytes>,
}

impl Record<'_> {
    /// Writes its corners at the front of the output and returns how many, unless there is too little room.
    #[inline(always)]
    fn write(&self, out: &mut [i32]) -> Option<u64> {
        let corners = self.shape.corners;
        let front = room_of(out).get_mut(..corners.len())?;
        for (to, from) in front.iter_mut().zip(corners) {
            *to = from.read();
        }
        Some(corners.len() as u64)
    }

    /// Its shape, with the corners in a buffer.
    #[inline(always)]
    pub fn read<'b>(&self, buffer: &'b mut [Corner; MOST]) -> Shape<'b> {
        let Shape { corners, top } = self.shape;
        for (to, from) in buffer.iter_mut().zip(corners) {
            *to = from.read();
        }
        let corners = &buffer[..corners.len()];
        Shape { corners, top }
    }
}

/// Shows all whole records, and returns where the last ends; or refuses 15 at the first bad one.
#[inline(always)]
pub fn survey<'a>(log: &'a [u8], mut show: impl FnMut(Record<'a>)) -> Result<usize, Numbers> {
    let mut place = 0;
    while let Some(body) = whole(&log[place..]) {
        match record(body) {
            Some(record) => show(record),
            None => return Err(Numbers::damaged(place)),
        }
        place += 2 + body.len();
    }
    Ok(place)
}

/// What the length of the first record counts, if the record is whole.
#[inline(always)]
fn whole(log: &[u8]) -> Option<&[u8]> {
    let (length, rest) = log.split_first_chunk()?;
    let body = rest.get(..u16::from_le_bytes(*length).into())?;
    (body.last() == Some(&LAST)).then_some(body)
}

/// The record, unless its kind or length is wrong, or its corners are no shape.
#[inline(always)]
fn record(body: &[u8]) -> Option<Record<'_>> {
    let [k, kind, n, name, rest @ .., _] = body else {
        return None;
    };
    let name = u16::from_le_bytes([*n, *name]);
    let (floor, corners) = match u16::from_le_bytes([*k, *kind]) {
        PLAIN => (0, rest),
        FLOORED => {
            let (floor, corners) = rest.split_first_chunk()?;
            (u16::from_le_bytes(*floor), corners)
        }
        _ => return None,
    };
    let shape = shape(corners_in(corners)?)?;
    Some(Record { name, floor, shape })
}

/// Clears what is after the last whole record, then stores the record there. Whether all stores were made.
#[inline(always)]
fn add(rest: &mut [u8], name: u16, list: &[i32], floor: u32, allowed: usize) -> bool {
    let mut store = Store {
        left: clear(rest, allowed),
        at: 0,
        rest,
    };
    store.bytes(((FIXED - 2 + 4 * list.len()) as u16).to_le_bytes());
    store.bytes(FLOORED.to_le_bytes());
    store.bytes(name.to_le_bytes());
    store.bytes((floor as u16).to_le_bytes());
    store.numbers(list);
    store.bytes([LAST])
}

/// Clears all bytes that are not 0, from the far end down, and returns how many stores are left. Most often there are
/// none, which a fold without an exit tells soonest.
#[inline(always)]
fn clear(rest: &mut [u8], mut allowed: usize) -> usize {
    if rest.iter().fold(0, |all, byte| all | byte) != 0 {
        for byte in rest.iter_mut().rev().filter(|byte| **byte != 0) {
            if allowed == 0 {
                break;
            }
            *byte = 0;
            allowed -= 1;
        }
    }
    allowed
}

/// Bytes that are stored one after the other, as many as are allowed.
struct Store<'a> {
    rest: &'a mut [u8],
    at: usize,
    left: usize,
}

impl Store<'_> {
    /// Stores bytes, or as many of them as are left. Whether all were.
    #[inline(always)]
    fn bytes<const K: usize>(&mut self, bytes: [u8; K]) -> bool {
        let count = self.left.min(K);
        self.rest[self.at..][..count].copy_from_slice(&bytes[..count]);
        self.pass(count);
        count == K
    }

    /// Stores numbers, or as many of their bytes as are left.
    #[inline(always)]
    fn numbers(&mut self, list: &[i32]) {
        let (whole, cut) = list.split_at(list.len().min(self.left / 4));
        let words = self.rest[self.at..].as_chunks_mut::<4>().0;
        for (word, number) in words.iter_mut().zip(whole) {
            *word = number.to_le_bytes();
        }
        self.pass(4 * whole.len());
        if let [number, ..] = cut {
            self.bytes(number.to_le_bytes());
        }
    }

    /// Counts stores that were made.
    #[inline(always)]
    fn pass(&mut self, count: usize) {
        self.at += count;
        self.left -= count;
    }
}
