//! The made questions: the same for the same seed, of every row, and with every sort of answer.

use super::*;
use crate::answer::answer;
use crate::judge::judge;
use crate::measure::width;
use crate::plane::edge_ends;
use crate::text::lines;
use std::collections::HashMap;

fn made(seed: u64, count: usize) -> Vec<u8> {
    let mut bytes = Vec::new();
    write_all(seed, count, "", &mut bytes).expect("a vector takes all bytes");
    bytes
}

#[test]
fn same_seed_same_questions() {
    assert_eq!(made(9, 500), made(9, 500));
    assert_ne!(made(9, 500), made(10, 500));
}

#[test]
fn as_many_lines_want_an_answer_as_were_asked_for() {
    assert_eq!(lines::questions(&made(11, 3000)).count(), 3000);
}

#[test]
fn no_line_begins_with_the_word_that_only_the_other_program_knows() {
    let input = made(11, 3000);
    let mut words = lines::questions(&input).map(|(_, line)| lines::trimmed(line));
    assert!(words.all(|text| !text.starts_with(b"draw")));
}

/// The numbers that a host's calls are answered with, by refusal and by what else they tell.
#[test]
fn every_sort_of_a_hosts_answer_comes_up_often() {
    let mut input = Vec::new();
    write_host(15, 4000, &mut input).expect("a vector takes all bytes");
    let mut seen: HashMap<String, usize> = HashMap::new();
    for (_, line) in lines::questions(&input) {
        let word = String::from_utf8_lossy(lines::words(line).next().unwrap_or_default());
        let told = answer(line);
        let sort = match told.strip_prefix("0x") {
            Some(digits) => {
                let number = u64::from_str_radix(&digits[..16], 16).expect("16 digits");
                let relation = if word == "hrelation" && number & 0xFF == 0 {
                    format!(" {}", number >> 16 & 0xFFFF)
                } else {
                    String::new()
                };
                format!("{word} {}{relation}", number & 0xFF)
            }
            None => told,
        };
        *seen.entry(sort).or_default() += 1;
    }
    let often = "hjudge 0,hjudge 1,hjudge 2,hjudge 3,hjudge 4,hjudge 5,hjudge 13,\
                 hsum 0,hsum 1,hsum 6,hsum 7,hsum 8,hsum 13,\
                 hmerge 0,hmerge 1,hmerge 6,hmerge 8,hmerge 13,hrelation 0 0,hrelation 0 1,hrelation 0 2,hrelation 13,\
                 unreadable: not bytes,unreadable: not a floor,unreadable: not a count,unreadable: unknown word,\
                 unreadable: missing field,unreadable: too many fields,unreadable: line too long";
    for sort in often.split(',') {
        let count = seen.get(sort).copied().unwrap_or(0);
        assert!(count >= 2, "{sort}: {count}");
    }
}

/// The answer's first words, without the numbers of good answers.
fn sort_of(line: &[u8], answer: &str) -> String {
    let word = String::from_utf8_lossy(lines::words(line).next().unwrap_or_default());
    let parts: Vec<&str> = answer.split(' ').collect();
    let found = match (&word[..], &parts[..]) {
        ("nearest", ["ok", _, found, ..]) | ("gap", ["ok", _, _, found, ..]) => Some(*found),
        ("contact", ["ok", "0", "1", ..]) | ("drive", ["ok", _, "0", "1", ..]) => Some("begun"),
        ("contact", ["ok", "1", "1", ..]) | ("drive", ["ok", _, "1", "1", ..]) => Some("ended"),
        _ => None,
    };
    if let Some(found) = found {
        return format!("{word} {found}");
    }
    match parts[..] {
        ["ok", bits, ..] if bits.starts_with("0x") => format!("{word} ok"),
        ["ok", floor, ..] if floor.starts_with('@') => format!("{word} ok"),
        ["ok", found, ..] if found.parse::<i64>().is_err() => format!("{word} {found}"),
        ["ok", ..] => format!("{word} ok"),
        ["no", number, ..] => format!("no {number}"),
        _ => answer.to_string(),
    }
}

#[test]
fn every_sort_of_answer_comes_up_often() {
    let input = made(14, 12_000);
    let mut seen: HashMap<String, usize> = HashMap::new();
    for (_, line) in lines::questions(&input) {
        *seen.entry(sort_of(line, &answer(line))).or_default() += 1;
    }
    let often = "no 1,no 2,no 3,no 4,no 5,no 6,no 7,no 8,no 9,no 10,no 11,no 12,no 13,no 14,no 15,no 16,no 17,no 18,\
                 no 19,no 20,judge ok,furthest ok,mirror ok,sum ok,parts ok,part ok,merge ok,grow ok,sweep ok,ring ok,\
                 length ok,area ok,width ok,box ok,relation apart,relation touching,\
                 relation overlapping,inside yes,inside no,offer yes,offer no,find ok,find none,\
                 clearance ok,clearance cc,clearance ce,clearance ec,greatest ok,\
                 excess inside,excess cc,excess ce,tangents ok,passage ok,passage blocked,\
                 contact never,contact begun,contact ended,contact ok,\
                 tablet ok,bookread ok,bookadd finished,bookadd cut,pack finished,pack cut,\
                 entry ok,nearest 0,nearest cc,nearest ce,nearest ec,gap 0,gap cc,gap ce,gap ec,\
                 drive never,drive begun,drive ended,drive ok,\
                 unreadable: line too long,unreadable: unknown word,unreadable: missing field,\
                 unreadable: too many fields,unreadable: not a number of 32 bits,\
                 unreadable: too many numbers,unreadable: wrong count of numbers,\
                 unreadable: not a count,unreadable: not a reading,unreadable: not bytes,\
                 unreadable: not a name,unreadable: not a walk,unreadable: not a call,\
                 unreadable: not a floor";
    for sort in often.split(',') {
        let count = seen.get(sort).copied().unwrap_or(0);
        assert!(count >= 3, "{sort}: {count}");
    }
}

/// The refusals of these words, with the list that 3 blames.
#[test]
fn every_refusal_of_a_word_comes_up_often() {
    let words = [
        ("entry", "no 8,no 15,no 20"),
        ("nearest", "no 1,no 2,no 3,no 4,no 5,no 15,no 20"),
        ("gap", "no 1,no 2,no 3,no 4,no 5,no 6,no 7,no 15,no 20"),
        (
            "contact",
            "no 1,no 2,no 3 shape 1,no 3 shape 2,no 3 shape 3,no 3 shape 4,no 4,no 5,no 6,no 7,no 13",
        ),
        (
            "drive",
            "no 1,no 2,no 3 shape 1,no 3 shape 2,no 3 shape 3,no 4,no 5,no 6,no 7,no 15,no 20",
        ),
        (
            "greatest",
            "no 1 shape 1,no 1 shape 2,no 2,no 3,no 4,no 5 shape 1,no 5 shape 2,no 13",
        ),
        ("box", "no 1,no 2,no 3,no 4,no 5,no 10"),
        ("ring", "no 1,no 2,no 3,no 4,no 8"),
    ];
    for (word, often) in words {
        let mut input = Vec::new();
        write_all(16, 3000, word, &mut input).expect("a vector takes all bytes");
        let told: Vec<String> = lines::questions(&input)
            .map(|(_, line)| answer(line) + " ")
            .collect();
        for sort in often.split(',') {
            let start = format!("{sort} ");
            let count = told.iter().filter(|told| told.starts_with(&start)).count();
            assert!(count >= 3, "{word} {sort}: {count}");
        }
    }
}

#[test]
fn shapes_are_good_unless_too_wide() {
    let mut dice = Dice::new(13);
    for _ in 0..3000 {
        let list: Vec<i32> = numbers(&shapes::any(&mut dice))
            .iter()
            .filter_map(|&n| i32::try_from(n).ok())
            .collect();
        let number = judge(&list, 1).map_or_else(|refusal| refusal.number, |_| 0);
        assert!(number == 0 || number == 3, "{list:?}");
    }
}

#[test]
fn nearly_tied_widths_are_told_apart() {
    let mut dice = Dice::new(14);
    let mut later_wins = 0;
    for _ in 0..100 {
        let shape = shapes::nearly_tied(&mut dice);
        let found = width(&shape).expect("six corners");
        let (a, b) = edge_ends(&shape, found.edge);
        assert!(
            a.x == b.x || a.y == b.y,
            "the edge along an axis is narrower"
        );
        later_wins += usize::from(found.edge > 0);
    }
    assert!(later_wins > 10);
}
