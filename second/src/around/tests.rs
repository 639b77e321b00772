//! Answers over all current shapes against answers on each of them, by the words that read and compare.

use crate::answer::answer;
use crate::make::dice::Dice;
use crate::make::{around, line};
use std::collections::HashSet;

/// A current shape: its name, and the text of its field.
type Held = (String, String);

fn asked(word: &str, fields: &[&str]) -> String {
    let fields: Vec<String> = fields.iter().map(|field| field.to_string()).collect();
    answer(line(word, &fields).as_bytes())
}

/// All entries of a log, read one by one; nothing if it is refused.
fn entries(log: &str) -> Option<Vec<Held>> {
    let mut held = Vec::new();
    loop {
        let told = asked("entry", &[log, &held.len().to_string()]);
        if told == "no 20" {
            return Some(held);
        }
        let (front, numbers) = told.strip_prefix("ok ")?.split_once(" | ")?;
        let [_, name, floor] = front.split(' ').collect::<Vec<_>>().try_into().ok()?;
        held.push((name.to_string(), format!("{floor} {numbers}")));
    }
}

/// The squared distance of a clearance's words, top and bottom.
fn squared(words: &str) -> (i128, i128) {
    let parts: Vec<&str> = words.split(' ').collect();
    let number = |at: usize| parts[at].parse::<i128>().expect("a number");
    match parts[0] {
        "0" => (0, 1),
        "cc" => (number(3), 1),
        _ => (number(3) * number(3), number(4)),
    }
}

/// The first of the least answers, each after its names.
fn first_least(answers: Vec<(String, String)>) -> Option<String> {
    let nearest = answers.into_iter().reduce(|best, next| {
        let ((top, bottom), (n, m)) = (squared(&best.1), squared(&next.1));
        if n * bottom < top * m { next } else { best }
    })?;
    Some(format!("ok {} {}", nearest.0, nearest.1))
}

/// What clearance says of two shapes, if it is answered.
fn between(a: &str, b: &str) -> Option<String> {
    Some(asked("clearance", &[a, b]).strip_prefix("ok ")?.to_string())
}

#[test]
fn entries_are_what_their_names_read_as() {
    let mut dice = Dice::new(51);
    let mut read = 0;
    while read < 2000 {
        let log = around::entry(&mut dice).swap_remove(0);
        let held = entries(&log).unwrap_or_default();
        let names: HashSet<&String> = held.iter().map(|(name, _)| name).collect();
        assert_eq!(names.len(), held.len(), "{log}");
        for (name, text) in &held {
            let told = asked("bookread", &[&log, name]);
            let (front, numbers) = told.split_once(" | ").expect("a shape");
            let floor = front.rsplit(' ').next().expect("a floor");
            assert_eq!(format!("{floor} {numbers}"), *text);
            read += 1;
        }
    }
}

#[test]
fn no_entry_is_nearer() {
    let mut dice = Dice::new(52);
    let mut found = 0;
    while found < 600 {
        let fields = around::nearest(&mut dice);
        let [log, shape, but] = [0, 1, 2].map(|at| &fields[at][..]);
        let told = asked("nearest", &[log, shape, but]);
        let Some(held) = entries(log).filter(|_| told.starts_with("ok")) else {
            continue;
        };
        let others = held.into_iter().filter(|(name, _)| name != but);
        let all = others.filter_map(|(name, text)| Some((name, between(shape, &text)?)));
        assert_eq!(Some(told), first_least(all.collect()), "{fields:?}");
        found += 1;
    }
}

#[test]
fn no_pair_is_nearer() {
    let mut dice = Dice::new(53);
    let mut found = 0;
    while found < 300 {
        let fields = around::gap(&mut dice);
        let (log, cart) = (&fields[0], &fields[1]);
        let told = asked("gap", &[log, cart]);
        let Some(held) = entries(log).filter(|_| told.starts_with("ok")) else {
            continue;
        };
        let grown = |(name, text): Held| {
            let told = asked("grow", &[&text, cart]);
            let (front, numbers) = told.strip_prefix("ok ")?.split_once(" | ")?;
            let floor = front.rsplit(' ').next()?;
            Some((name, format!("{floor} {numbers}")))
        };
        let grown: Vec<Held> = held.into_iter().filter_map(grown).collect();
        let mut all = Vec::new();
        for (place, (name, text)) in grown.iter().enumerate() {
            for (other, second) in &grown[place + 1..] {
                let words = between(text, second).expect("two shapes of one floor");
                all.push((format!("{name} {other}"), words));
            }
        }
        assert_eq!(Some(told), first_least(all), "{fields:?}");
        found += 1;
    }
}

/// Every contact of a drive with an entry, by the word for one obstacle; how often two are as early.
#[test]
fn no_entry_is_met_earlier() {
    let mut dice = Dice::new(54);
    let (mut found, mut never, mut tied) = (0, 0, 0);
    while found < 300 || never < 100 || tied < 50 {
        let fields = around::drive(&mut dice);
        let [log, cart, from, to] = [0, 1, 2, 3].map(|at| &fields[at][..]);
        let told = asked("drive", &[log, cart, from, to]);
        let Some(held) = entries(log).filter(|_| told.starts_with("ok")) else {
            continue;
        };
        let floor = told.rsplit(' ').next().expect("a floor");
        let met = |(name, text): Held| {
            let told = asked("contact", &[&text, cart, from, to]);
            let words = told.strip_prefix("ok ")?.strip_suffix(floor)?.trim_end();
            let numbers: Vec<i128> = words
                .split(' ')
                .filter_map(|word| word.parse().ok())
                .collect();
            let [n, d, _] = numbers.try_into().ok()?;
            Some((format!("{name} {words}"), (n, d)))
        };
        let met: Vec<_> = held.into_iter().filter_map(met).collect();
        let is_first = |&(n, d): &(i128, i128)| met.iter().all(|(_, (m, e))| n * e <= m * d);
        let first: Vec<&String> = met
            .iter()
            .filter(|(_, at)| is_first(at))
            .map(|(words, _)| words)
            .collect();
        let words = first.first().map_or("never", |words| words);
        assert_eq!(told, format!("ok {words} {floor}"), "{fields:?}");
        match first.len() {
            0 => never += 1,
            count => {
                found += 1;
                tied += usize::from(count > 1);
            }
        }
    }
}
