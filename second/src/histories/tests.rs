//! The sentences hold of this program, and additions that store in another order break one.

use super::*;
use crate::answer::answer;
use crate::log::{Store, add_by};

type Stores = fn(&[u8], usize, &[u8]) -> Vec<Store>;

/// What is wrong with additions that make other stores; nothing is cut after finishing.
fn fault(stores: Stores) -> Option<String> {
    let mut ask = |question: &str| {
        let parts: Vec<&str> = question.split(" | ").collect();
        let &["bookadd", log, name, list, most] = &parts[..] else {
            return Ok(answer(question.as_bytes()));
        };
        let mut log = bytes(log.as_bytes()).expect("a log");
        let mut words = list.split(' ').peekable();
        let floor = words.next_if(|word| word.starts_with('@'));
        let floor = floor.map_or(0, |word| word[1..].parse().expect("a floor"));
        let list: Vec<i32> = words.map(|n| n.parse().expect("a number")).collect();
        let name = name.parse().expect("a name");
        let most = most.parse().expect("a count");
        let answer = match add_by(stores, &mut log, name, floor, &list, most) {
            Ok(true) => format!("ok finished | {}", log_text(&log)),
            Ok(false) => format!("ok cut | {}", log_text(&log)),
            Err(refusal) => refusal.to_string(),
        };
        Ok(answer)
    };
    walk(5, 24, &mut ask).err()
}

fn up(end: usize, record: &[u8]) -> Vec<Store> {
    (end..).zip(record.iter().copied()).collect()
}

fn cleared(places: impl Iterator<Item = usize>) -> Vec<Store> {
    places.map(|place| (place, 0)).collect()
}

#[test]
fn the_sentences_hold_of_this_program() {
    assert_eq!(
        walk(5, 24, &mut |question| Ok(answer(question.as_bytes()))),
        Ok(())
    );
}

#[test]
fn clearing_bytes_that_are_0_already_breaks_no_sentence() {
    let stores: Stores =
        |log, end, record| [cleared((end..log.len()).rev()), up(end, record)].concat();
    assert_eq!(fault(stores), None);
}

#[test]
fn additions_that_store_otherwise_are_caught() {
    let others: [(&str, Stores); 7] = [
        ("cleared from the front", |log, end, record| {
            [cleared(end..log.len()), up(end, record)].concat()
        }),
        ("cleared last", |log, end, record| {
            let behind = end + record.len()..log.len();
            [up(end, record), cleared(behind.rev())].concat()
        }),
        ("cleared after the record alone", |log, end, record| {
            let behind = end + record.len()..log.len();
            [cleared(behind.rev()), up(end, record)].concat()
        }),
        ("nothing cleared", |_, end, record| up(end, record)),
        ("cleared as far as the record goes", |_, end, record| {
            [cleared((end..end + record.len()).rev()), up(end, record)].concat()
        }),
        ("last byte first", |log, end, record| {
            let mut stores = up(end, record);
            stores.rotate_right(1);
            [cleared((end..log.len()).rev()), stores].concat()
        }),
        ("cleared twice", |log, end, record| {
            let clears = cleared((end..log.len()).rev());
            [clears.clone(), clears, up(end, record)].concat()
        }),
    ];
    for (name, stores) in others {
        assert!(fault(stores).is_some(), "{name}");
    }
}
