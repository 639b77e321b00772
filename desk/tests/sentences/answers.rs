//! The numbers of answers, derived from the answer of `second` and the corners of the line.
use crate::case::Case;
use crate::floors::{contact, drive, entry, gap, nearest};
use crate::near::{Near, places};
use crate::said::{needs, never, rounding};
use crate::tokens::numbers;
use second::answer::offered;
use second::plane::point;

/// Returns the numbers of the sentence of an answered question.
pub fn of_answer(case: &Case, answer: &str, said: &str) -> Result<Vec<i128>, String> {
    let words: Vec<&str> = answer.split(' ').collect();
    match case.word.as_str() {
        "judge" | "furthest" | "length" | "width" | "area" => about_one(case, &words, said),
        "box" => least_box(case, &words, said),
        "relation" | "inside" | "offer" => Ok(decided(case, words[0], said)?),
        "find" => found_direction(case, words[0], said),
        "clearance" => clearance(case, &words, said),
        "greatest" => greatest(case, &words, said),
        "excess" => excess(case, &words, said),
        "tangents" => Ok(tangents(case, &words)),
        "passage" => passage(case, &words, said),
        "parts" => Ok(parts(case, answer)),
        "part" => Ok(part(case, &words, answer)),
        "tablet" => Ok(words.iter().map(|word| double(word) as i128).collect()),
        "bookadd" => added(case, answer, said),
        "pack" => packed(case, answer, said),
        "entry" => Ok(entry(case, &words, answer)),
        "nearest" => nearest(case, &words, said),
        "gap" => gap(case, &words, said),
        "drive" => drive(case, &words, said),
        "contact" => contact(case, &words, said),
        _ => Ok(made(case, number(words[0]), floor(&words), answer)),
    }
}

/// Returns a number of an answer.
pub fn number(word: &str) -> i128 {
    word.parse().expect("a number")
}

/// Returns a position of an answer.
pub fn position(word: &str) -> usize {
    word.parse().expect("a position")
}

/// Returns the floor of an answer.
pub fn floor(words: &[&str]) -> i128 {
    let word = words.iter().find_map(|word| word.strip_prefix('@'));
    number(word.expect("a floor"))
}

fn both(case: &Case) -> Vec<i128> {
    [case.label(0), case.label(1)].concat()
}

fn about_one(case: &Case, words: &[&str], said: &str) -> Result<Vec<i128>, String> {
    let (list, label) = (&case.lists[0], case.label(0));
    let corner = |at: usize| list.corner(position(words[at])).to_vec();
    Ok(match case.word.as_str() {
        "judge" if number(words[0]) <= 2 => vec![floor(words)],
        "judge" => vec![number(words[0]), floor(words)],
        "furthest" => {
            let (towards, value) = (case.numbers_of_field(1), vec![number(words[2])]);
            let corners = match words[0] == words[1] {
                true => corner(0),
                false => [corner(0), corner(1)].concat(),
            };
            [towards.clone(), label, corners, towards, value].concat()
        }
        "area" => [label, vec![number(words[0])]].concat(),
        "length" if number(words[0]) == 0 => [label, vec![0]].concat(),
        "length" => {
            let squared = number(words[0]);
            // √d is d/√d: the same rule as for a turn.
            rounding(said, squared, squared, squared.isqrt())?;
            [label, vec![squared.isqrt()], corner(1), corner(2)].concat()
        }
        _ => {
            let [t, q, w] = [2, 3, 4].map(|at| number(words[at]));
            rounding(said, t, q, w)?;
            [label, vec![w], corner(1), list.edge(position(words[0]))].concat()
        }
    })
}

/// Both sides, each t/√q rounded down, which is said of each that is not whole.
fn least_box(case: &Case, words: &[&str], said: &str) -> Result<Vec<i128>, String> {
    let [t, s, q] = [1, 2, 3].map(|at| number(words[at]));
    let [along, across] = [s, t].map(|side| (side * side / q).isqrt());
    let (first, second) = said
        .split_once(" along its edge ")
        .ok_or("no edge is said")?;
    rounding(first, s, q, along)?;
    rounding(second, t, q, across)?;
    let edge = case.lists[0].edge(position(words[0]));
    Ok([case.label(0), vec![along], edge, vec![across]].concat())
}

fn greatest(case: &Case, words: &[&str], said: &str) -> Result<Vec<i128>, String> {
    let squared = number(words[0]);
    rounding(said, squared, squared.max(1), squared.isqrt())?;
    let corners = [1, 2].map(|at| case.corner(at - 1, position(words[at])));
    Ok([both(case), vec![squared.isqrt()], corners.concat()].concat())
}

/// The questions that are answered by a word.
fn decided(case: &Case, word: &str, said: &str) -> Result<Vec<i128>, String> {
    match (case.word.as_str(), word) {
        ("relation", "apart") => needs(said, " are apart")?,
        ("relation", "touching") => needs(said, " touch:")?,
        ("relation", _) => needs(said, " overlap")?,
        ("inside", "yes") => never(said, "not inside")?,
        ("inside", _) => needs(said, "not inside")?,
        (_, answer) => needs(said, &format!("{answer}: "))?,
    }
    let towards = match case.word.as_str() {
        "offer" => case.numbers_of_field(2),
        _ => Vec::new(),
    };
    Ok([towards, both(case)].concat())
}

fn tangents(case: &Case, words: &[&str]) -> Vec<i128> {
    let line = |at: usize| {
        let [from, to] = [words[at], words[at + 1]].map(position);
        [case.lists[0].corner(from), case.lists[1].corner(to)].concat()
    };
    let labels = || both(case);
    [
        labels(),
        line(0),
        line(2),
        labels(),
        line(4),
        labels(),
        line(6),
    ]
    .concat()
}

fn passage(case: &Case, words: &[&str], said: &str) -> Result<Vec<i128>, String> {
    let labels = [case.label(2), both(case)].concat();
    if words[0] == "blocked" {
        needs(said, " cannot pass straight between ")?;
        return Ok(labels);
    }
    needs(said, " can pass straight between ")?;
    let [u, v, low, high, width] = [0, 1, 2, 3, 4].map(|at| number(words[at]));
    rounding(said, high - low, u * u + v * v, width)?;
    Ok([labels, vec![width, u, v, u, v, low, high]].concat())
}

fn part(case: &Case, words: &[&str], answer: &str) -> Vec<i128> {
    let next = match words[3] {
        "1" => Vec::new(),
        _ => vec![number(words[1]), number(words[2]), 0],
    };
    [both(case), numbers_after_bar(answer), next].concat()
}

/// Returns the corners after the last bar of an answer.
pub fn numbers_after_bar(answer: &str) -> Vec<i128> {
    let (_, numbers) = answer.rsplit_once('|').expect("a bar");
    numbers
        .split_ascii_whitespace()
        .map(|word| word.parse().expect("a number"))
        .collect()
}

/// A shape that was made.
fn made(case: &Case, count: i128, floor: i128, answer: &str) -> Vec<i128> {
    let subject = match case.word.as_str() {
        "bookread" => case.numbers_of_field(1),
        "sweep" | "ring" => Vec::new(),
        "mirror" => case.label(0),
        _ => [case.label(0), case.label(1)].concat(),
    };
    [subject, described(count, floor, answer)].concat()
}

/// Returns the numbers of a shape with all its corners.
pub fn described(count: i128, floor: i128, answer: &str) -> Vec<i128> {
    let what = if count > 2 {
        vec![count, floor]
    } else {
        vec![floor]
    };
    [what, numbers_after_bar(answer)].concat()
}

fn found_direction(case: &Case, word: &str, said: &str) -> Result<Vec<i128>, String> {
    let labels = [case.label(0), case.label(1)].concat();
    if word == "none" {
        needs(said, "not apart")?;
        return Ok(labels);
    }
    // Any direction that is accepted will do: the one that is said is offered to brute force.
    let found = numbers(said);
    let at = labels.len();
    let (u, v) = (found[at], found[at + 1]);
    let accepted = offered(case.line.as_bytes(), point(u as i64, v as i64));
    if !accepted
        .as_ref()
        .is_some_and(|answer| answer.starts_with("yes"))
    {
        return Err(format!(
            "the direction {u} {v} is not accepted: {accepted:?}"
        ));
    }
    Ok([labels.clone(), vec![u, v], labels].concat())
}

fn clearance(case: &Case, words: &[&str], said: &str) -> Result<Vec<i128>, String> {
    let labels = [case.label(0), case.label(1)].concat();
    if words[0] == "0" {
        needs(said, "not apart")?;
        return Ok(labels);
    }
    let near = [0, 1].map(|which| Near::given(case, which));
    Ok([labels, places(words, &near, said)?].concat())
}

fn excess(case: &Case, words: &[&str], said: &str) -> Result<Vec<i128>, String> {
    let labels = [case.label(0), case.label(1)].concat();
    if words[0] == "inside" {
        needs(said, "is inside")?;
        return Ok(labels);
    }
    needs(said, "rounded up")?;
    let (place, up) = if words[0] == "cc" {
        (case.corner(1, position(words[2])), number(words[4]))
    } else {
        let edge = case.lists[1].edge(position(words[2]));
        ([edge, case.label(1)].concat(), number(words[5]))
    };
    let corner = case.corner(0, position(words[1]));
    Ok([case.label(0), vec![up], case.label(1), place, corner].concat())
}

fn parts(case: &Case, answer: &str) -> Vec<i128> {
    let rooms = case.fields[2].split_ascii_whitespace();
    let rooms: Vec<i128> = rooms
        .map(|call| {
            call.split_once(':')
                .expect("a colon")
                .1
                .parse()
                .expect("a room")
        })
        .collect();
    let mut expected = [case.label(0), case.label(1)].concat();
    for (number, part) in (1..).zip(answer.split('|').skip(1)) {
        expected.push(number);
        match part.trim().strip_prefix("no ") {
            Some(refused) => expected.extend([
                refused.parse().expect("a number"),
                rooms[number as usize - 1],
            ]),
            None => expected.extend(
                part.split_ascii_whitespace()
                    .skip(1)
                    .map(|word| word.parse::<i128>().expect("a number")),
            ),
        }
    }
    expected
}

fn added(case: &Case, answer: &str, said: &str) -> Result<Vec<i128>, String> {
    let (word, log) = answer
        .split_once(" | ")
        .unwrap_or((answer.trim_end_matches([' ', '|']), ""));
    let told = said.split_once("its bytes are ").map_or("", |(_, log)| log);
    if told != log.trim() {
        return Err(format!("the log is told as {told}"));
    }
    let how = if word == "cut" {
        "the stores ran out"
    } else {
        " is in the log as name "
    };
    needs(said, how)?;
    Ok([case.label(0), case.numbers_of_field(1)].concat())
}

fn packed(case: &Case, answer: &str, said: &str) -> Result<Vec<i128>, String> {
    let (word, log) = answer
        .split_once(" | ")
        .unwrap_or((answer.trim_end_matches([' ', '|']), ""));
    let told = said.split_once("its bytes are ").map_or("", |(_, log)| log);
    if told != log.trim() {
        return Err(format!("the log is told as {told}"));
    }
    let how = if word == "cut" {
        "the stores ran out"
    } else {
        "the log is packed"
    };
    needs(said, how)?;
    Ok(case.numbers_of_field(2))
}

/// Returns the double of its bits.
pub fn double(word: &str) -> f64 {
    let digits = word.trim_start_matches("0x");
    f64::from_bits(u64::from_str_radix(digits, 16).expect("hexadecimal digits"))
}
