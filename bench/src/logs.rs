//! Logs to compare answers on: records of both kinds, some of them bad, and what may follow the last whole one.
use crate::lists::{shape, spoilt};
use crate::random::Random;
use crate::shapes::bytes_of;

/// Names are below it.
pub const NAMES: u64 = 4;

/// The floors that most records are on.
pub const FLOORS: [u16; 2] = [0, 3];

/// The most records.
const RECORDS: u64 = 6;

/// A log, most often without a bad record.
pub fn log(random: &mut Random) -> Vec<u8> {
    let mut log = Vec::new();
    for _ in 0..random.below(RECORDS) {
        let list = match random.below(24) {
            0 => {
                let list = shape(random);
                spoilt(random, &list)
            }
            _ => small(random),
        };
        let name = random.below(NAMES) as u16;
        let floor = match random.below(4) {
            0 | 1 => None,
            2 => Some(FLOORS[1]),
            _ => Some(random.bits() as u16),
        };
        log.extend(record(name, floor, &list));
    }
    if random.below(16) == 0 && !log.is_empty() {
        let at = random.below(log.len() as u64) as usize;
        log[at] = [0, 1, 2, 3, 4, 5, 0x5A, 0xFF][random.below(8) as usize];
    }
    log.extend(end(random));
    log
}

/// A record, of kind 1 if it has no floor.
pub fn record(name: u16, floor: Option<u16>, list: &[i32]) -> Vec<u8> {
    let mut body = vec![1 + floor.is_some() as u8, 0];
    body.extend(name.to_le_bytes());
    body.extend(floor.iter().flat_map(|floor| floor.to_le_bytes()));
    body.extend(bytes_of(list));
    body.push(0x5A);
    let mut record = (body.len() as u16).to_le_bytes().to_vec();
    record.extend(body);
    record
}

/// A shape of few corners, most often.
fn small(random: &mut Random) -> Vec<i32> {
    loop {
        let list = shape(random);
        if list.len() < 100 || random.below(16) == 0 {
            return list;
        }
    }
}

/// Room, some of it torn: part of a record, or any bytes.
fn end(random: &mut Random) -> Vec<u8> {
    let room = [0, 1, 20, 200, 9000][random.below(5) as usize] as usize;
    let mut end = vec![0; room];
    let torn = match random.below(4) {
        0 => record(0, Some(0), &small(random)),
        1 => (0..random.below(30)).map(|_| random.bits() as u8).collect(),
        _ => Vec::new(),
    };
    let kept = random.below(torn.len() as u64 + 1) as usize;
    for (to, from) in end.iter_mut().zip(&torn[..kept]) {
        *to = *from;
    }
    end
}
