//! The kinds of answers: which one an answer is of, and which must come.
use crate::reply::Numbers;
use std::cmp::Ordering;

/// What must have been compared at least once: of each question answers by their first values, and
/// refusals.
pub const KINDS: [(&str, &str); 36] = [
    ("judge", "ok; no 1; no 2; no 3; no 4; no 5; no 13"),
    (
        "furthest",
        "ok, one corner; ok, an edge; ok, over the end; no 11; no 12; no 13",
    ),
    ("mirror", "ok; no 4; no 8; no 13"),
    ("length", "ok; no 4; no 13"),
    ("width", "ok; no 4; no 10; no 13"),
    ("area", "ok; no 4; no 13"),
    ("box", "ok; no 4; no 10; no 13"),
    ("sum", "ok; no 4; no 6; no 7; no 8; no 13"),
    ("begin", "ok; no 4; no 6; no 7; no 13"),
    ("part", "ok; ok, over; no 4; no 6; no 7; no 8; no 13; no 14"),
    ("merge", "ok; no 4; no 6; no 8; no 13"),
    ("grow", "ok; no 4; no 6; no 7; no 8; no 13"),
    ("sweep", "ok; no 1; no 2; no 3; no 8; no 13"),
    ("ring", "ok; no 1; no 2; no 3; no 4; no 8; no 13"),
    ("relation", "ok 0; ok 1; ok 2; no 4; no 13"),
    ("inside", "ok 0; ok 1; no 4; no 13"),
    ("clearance", "ok 0; ok 1; ok 2; ok 3; no 4; no 13"),
    ("greatest", "ok; no 4; no 13"),
    ("excess", "ok 0; ok 1; ok 2; no 4; no 13"),
    ("tangents", "ok; no 4; no 9; no 13"),
    ("passage", "ok 0; ok 1; no 4; no 6; no 7; no 13"),
    ("contact", "ok 0; ok 1; no 3; no 4; no 6; no 7; no 13"),
    ("offer", "ok 0; ok 1; no 4; no 11; no 12; no 13"),
    ("find", "ok 0; ok 1; no 4; no 13"),
    ("tablet", "ok; no 3; no 17; no 18"),
    ("log_read", "ok; no 8; no 15; no 19"),
    ("log_add", "ok 0; ok 1; no 4; no 13; no 15; no 16"),
    ("log_pack", "ok 0; ok 1; no 15; no 16"),
    ("log_entry", "ok; no 8; no 15; no 20"),
    (
        "log_nearest",
        "ok 0; ok 1; ok 2; ok 3; no 4; no 13; no 15; no 20",
    ),
    (
        "log_gap",
        "ok 0; ok 1; ok 2; ok 3; no 4; no 6; no 7; no 13; no 15; no 20",
    ),
    (
        "log_contact",
        "ok 0; ok 1; no 3; no 4; no 6; no 7; no 13; no 15; no 20",
    ),
    ("judge_bytes", "ok; no 1; no 2; no 3; no 4; no 5; no 13"),
    ("sum_bytes", "ok; no 4; no 6; no 7; no 8; no 13"),
    ("merge_bytes", "ok; no 4; no 6; no 8; no 13"),
    ("relation_bytes", "ok 0; ok 1; ok 2; no 4; no 13"),
];

/// The kind of an answer to a question.
pub fn kind(word: &str, answer: Numbers) -> String {
    let [first, second, third, over, ..] = answer.values;
    match (answer.refusal, word) {
        (
            0,
            "relation" | "relation_bytes" | "inside" | "clearance" | "excess" | "passage"
            | "contact" | "offer" | "find" | "log_add" | "log_pack" | "log_contact",
        ) => {
            format!("ok {first}")
        }
        (0, "log_nearest") => format!("ok {second}"),
        (0, "log_gap") => format!("ok {third}"),
        (0, "furthest") => format!("ok, {}", face(first, second)),
        (0, "part") if over == 1 => "ok, over".to_string(),
        (0, _) => "ok".to_string(),
        (number, _) => format!("no {number}"),
    }
}

/// How the first and the last of the furthest corners lie in the list.
fn face(first: u64, last: u64) -> &'static str {
    match first.cmp(&last) {
        Ordering::Less => "an edge",
        Ordering::Equal => "one corner",
        Ordering::Greater => "over the end",
    }
}
