//! The ticket's record, its ends and its refusals, and what an addition stores.

use super::*;
use crate::ask::log_text;

/// Point 1 -1 named 7, from before there were floors.
const POINT: [u8; 15] = [13, 0, 1, 0, 7, 0, 1, 0, 0, 0, 255, 255, 255, 255, 0x5A];

/// The same on floor 258.
#[rustfmt::skip]
const ON_FLOOR: [u8; 17] = [15, 0, 2, 0, 7, 0, 2, 1, 1, 0, 0, 0, 255, 255, 255, 255, 0x5A];

fn number(refusal: Refusal) -> (u8, Option<usize>) {
    (refusal.number, refusal.place)
}

#[test]
fn a_record_is_as_the_ticket_writes_it() {
    assert_eq!(old_record(7, &[1, -1]), POINT);
    assert_eq!(record(7, 258, &[1, -1]), ON_FLOOR);
    assert_eq!(log_text(&POINT), "0D000100070001000000FFFFFFFF5A");
}

#[test]
fn what_ends_a_log() {
    let ended = |bytes: &[u8]| end(&[&POINT[..], bytes].concat()) == 15;
    assert!(ended(&[]) && ended(&[0]) && ended(&[3]) && ended(&[0, 0, 0x5A]));
    assert!(ended(&POINT[..14]) && ended(&[2, 0, 0x5A, 0]) && ended(&[2, 0, 0x5A]));
    assert!(!ended(&[1, 0, 0x5A]) && !ended(&POINT));
}

#[test]
fn a_whole_record_is_good_or_15() {
    let refused = |bytes: &[u8]| {
        let log = [&POINT[..], bytes, &POINT].concat();
        read(&log, 9).map(|(_, floor)| floor).map_err(number)
    };
    assert_eq!(refused(&[]), Err((19, None)));
    for length in 1..=4 {
        let bytes = [&[length, 0][..], &[1; 3][..length as usize - 1], &[0x5A]].concat();
        assert_eq!(refused(&bytes), Err((15, Some(15))), "{length}");
    }
    assert_eq!(refused(&[5, 0, 1, 0, 7, 0, 0x5A]), Err((15, Some(15))));
    assert_eq!(refused(&record(7, 0, &[])), Err((15, Some(15))));
    for list in [&[1, 2, 3][..], &[1, 2, 1, 2], &[1_000_001, 2]] {
        assert_eq!(refused(&old_record(7, list)), Err((15, Some(15))));
        assert_eq!(refused(&record(7, 3, list)), Err((15, Some(15))));
    }
}

#[test]
fn a_kind_has_its_own_lengths() {
    let with_kind = |bytes: &[u8], low: u8, high: u8| {
        let mut other = bytes.to_vec();
        (other[2], other[3]) = (low, high);
        read(&other, 7).map(|(_, floor)| floor).map_err(number)
    };
    assert_eq!(with_kind(&POINT, 1, 0), Ok(0));
    assert_eq!(with_kind(&ON_FLOOR, 2, 0), Ok(258));
    for (low, high) in [(2, 0), (0, 0), (3, 0), (1, 1)] {
        assert_eq!(with_kind(&POINT, low, high), Err((15, Some(0))));
    }
    for (low, high) in [(1, 0), (0, 0), (3, 0), (2, 2)] {
        assert_eq!(with_kind(&ON_FLOOR, low, high), Err((15, Some(0))));
    }
}

#[test]
fn the_latest_record_of_a_name_counts() {
    let log = [
        record(7, 5, &[1, 2]),
        old_record(8, &[3, 4]),
        record(7, 65_535, &[5, 6]),
    ];
    let read = |name| read(&log.concat(), name).map(|(shape, floor)| (shape[0].x, floor));
    assert_eq!(read(7), Ok((5, 65_535)));
    assert_eq!(read(8), Ok((3, 0)));
}

#[test]
fn torn_bytes_are_room_and_are_cleared_first() {
    let mut log = [&POINT[..9], &[9; 10]].concat();
    assert_eq!(add(&mut log, 7, 258, &[1, -1], 15), Ok(false));
    assert_eq!(log, [&[15][..], &[0; 18]].concat());
    assert_eq!(add(&mut log, 7, 258, &[1, -1], 18), Ok(true));
    assert_eq!(log, [&ON_FLOOR[..], &[0; 2]].concat());
    let before = log.clone();
    let mut refused = |list: &[i32]| add(&mut log, 7, 0, list, 99).map_err(number);
    assert_eq!(refused(&[1, -1]), Err((16, None)));
    assert_eq!(refused(&[1, 1, 1]), Err((1, None)));
    assert_eq!(log, before);
}
