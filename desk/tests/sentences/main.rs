//! Every number of every sentence, derived again by brute force.
//!
//! Questions of all kinds are made from seeds. The program's sentence for each is taken apart into its numbers. What
//! they must be follows from the answer of `second`, which is found by brute force, and from the corners of the line.
mod answers;
mod case;
mod derived;
mod floors;
mod near;
mod refusals;
mod said;
mod tokens;

use case::Case;
use derived::derive;
use desk::report::sentence;
use desk::session::{Event, Session};
use desk::source::Source;
use std::collections::BTreeSet;

/// What came of the lines of a file.
fn events(text: &str) -> Vec<Event> {
    let source = Source {
        name: "made.txt".into(),
        bytes: text.as_bytes().to_vec(),
    };
    let mut events = Vec::new();
    let told = Session::new().read(&source, |event| -> Result<(), ()> {
        events.push(event);
        Ok(())
    });
    assert_eq!(told, Ok(()));
    events
}

/// Made questions that `second` can read, one a line, of the words that begin so.
fn questions(seed: u64, count: usize, word: &str) -> Vec<String> {
    let mut made = Vec::new();
    second::make::write_all(seed, count, word, &mut made).expect("a vector takes all");
    let text = String::from_utf8(made).expect("questions are text");
    let lines = text.trim_start_matches('\u{FEFF}').lines();
    let readable =
        lines.filter(|line| !second::answer::answer(line.as_bytes()).starts_with("unreadable"));
    readable.map(str::to_string).collect()
}

/// Holds the sentence of a line against what is derived.
fn hold(question: &str, text: &str, named: bool) -> Option<Case> {
    let case = Case::of(question, named)?;
    let all = events(text);
    let event = all.last().unwrap_or_else(|| panic!("no event for {text}"));
    let said = sentence(event);
    if let Err(difference) = derive(&case, &said) {
        panic!(
            "{difference}\n  line: {question}\n  brute force: {}\n  said: {said}",
            case.answer
        );
    }
    Some(case)
}

#[test]
fn numbers_of_lists_in_the_line() {
    let mut seen = BTreeSet::new();
    for question in questions(11, 8_000, "") {
        if let Some(case) = hold(&question, &question, false) {
            seen.insert(case.kind());
        }
    }
    for word in [
        "judge",
        "furthest",
        "mirror",
        "sum",
        "parts",
        "part",
        "merge",
        "grow",
        "sweep",
        "ring",
        "length",
        "width",
        "box",
        "area",
        "relation",
        "inside",
        "offer",
        "find",
        "clearance",
        "greatest",
        "excess",
        "tangents",
        "passage",
        "tablet",
        "bookread",
        "bookadd",
        "pack",
        "entry",
        "nearest",
        "gap",
        "drive",
        "contact",
    ] {
        assert!(
            seen.contains(&format!("{word} ok")),
            "no {word} was answered"
        );
    }
    for number in 1..=20 {
        let refused = format!("no {number}");
        assert!(
            seen.iter().any(|kind| kind.ends_with(&refused)),
            "no refusal {number}"
        );
    }
}

#[test]
fn numbers_of_named_shapes() {
    let mut held = 0;
    for question in questions(12, 4_000, "") {
        if let Some(text) = case::with_names(&question) {
            held += usize::from(hold(&question, &text, true).is_some());
        }
    }
    assert!(held > 1_300, "only {held} questions had shapes to name");
}

/// Every refusal of the words that have several sorts of them.
#[test]
fn numbers_of_drives_boxes_and_rings() {
    for (word, refusals) in [
        ("drive", &[1, 2, 3, 4, 5, 6, 7, 15, 20][..]),
        ("greatest", &[1, 2, 3, 4, 5, 13]),
        ("box", &[1, 2, 3, 4, 5, 10]),
        ("ring", &[1, 2, 3, 4, 8]),
    ] {
        let mut seen = BTreeSet::new();
        for question in questions(15, 2_000, word) {
            if let Some(case) = hold(&question, &question, false) {
                seen.insert(case.kind());
            }
        }
        let refused = refusals.iter().map(|number| format!("{word} no {number}"));
        for kind in refused.chain([format!("{word} ok")]) {
            assert!(seen.contains(&kind), "{kind}");
        }
    }
}

#[test]
fn refused_definitions_name_their_corner() {
    let mut held = 0;
    for question in questions(13, 1_500, "judge") {
        let Some(((_, list), case)) = question.split_once('|').zip(Case::of(&question, true))
        else {
            continue;
        };
        let text = format!("shape | alpha | {list}");
        let all = events(&text);
        let said = sentence(all.last().expect("one event"));
        if case.answer.starts_with("no") {
            let rest = said
                .strip_prefix("`alpha` is ")
                .unwrap_or_else(|| panic!("{said}"));
            derive(&case, rest)
                .unwrap_or_else(|difference| panic!("{difference}: {said} ({text})"));
            held += 1;
        }
    }
    assert!(held > 300, "only {held} definitions were refused");
}

#[test]
fn moved_shapes_have_every_corner_moved() {
    let mut seen = BTreeSet::new();
    for (number, question) in (0_i64..).zip(questions(14, 1_500, "judge")) {
        let Some(list) = case::good_list(&question) else {
            continue;
        };
        let by = [
            (number * 7919) % 1999 - 999,
            (number * 104_729) % 1999 - 999,
        ];
        let by = by.map(|part| if number % 5 == 0 { part * 1001 } else { part });
        let moved: Vec<[i64; 2]> = list.iter().map(|[x, y]| [x + by[0], y + by[1]]).collect();
        let text = format!("at | {} | {} {}", case::text_of(&list), by[0], by[1]);
        let all = events(&text);
        let said = sentence(all.last().expect("one event"));
        let numbers = tokens::numbers(&said);
        let out = moved
            .as_flattened()
            .iter()
            .find(|part| part.abs() > 1_000_000);
        match out {
            None => {
                let expected: Vec<i128> = moved
                    .as_flattened()
                    .iter()
                    .map(|&part| part.into())
                    .collect();
                assert!(numbers.ends_with(&expected), "{said} ({text})");
                seen.insert("moved");
            }
            Some(_) => {
                assert!(said.starts_with("refused (7)"), "{said} ({text})");
                let reached = numbers.get(1).copied().expect("how far it reaches");
                let ends: Vec<i128> = moved
                    .as_flattened()
                    .iter()
                    .map(|&part| part.into())
                    .collect();
                assert!(
                    ends.contains(&reached) && reached.abs() > 1_000_000,
                    "{said} ({text})"
                );
                seen.insert("refused");
            }
        }
    }
    assert_eq!(seen.len(), 2, "{seen:?}");
}
