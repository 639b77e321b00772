//! Holds the answers of another program against this one's.

use crate::answer::{answer, offered};
use crate::plane::point;
use crate::text::lines;
use std::io::{self, Write};

/// How many differences are printed, and how many characters of a long line.
const MOST_TOLD: usize = 10;
const MOST_SHOWN: usize = 400;

#[derive(Debug, Default)]
pub struct Comparison {
    pub compared: usize,
    pub different: usize,
    told: Vec<String>,
}

impl Comparison {
    /// Compares an answer line with what it should be; either may be missing.
    fn add(&mut self, question: &str, expected: Option<&[u8]>, got: Option<&[u8]>) {
        if expected == got {
            return;
        }
        self.different += 1;
        if self.told.len() < MOST_TOLD {
            let (expected, got) = (shown(expected), shown(got));
            self.told.push(format!(
                "{question}\n  expected {expected}\n  got      {got}"
            ));
        }
    }

    pub fn tell(&self, mut to: impl Write) -> io::Result<()> {
        for difference in &self.told {
            writeln!(to, "{difference}")?;
        }
        let (compared, different) = (self.compared, self.different);
        writeln!(
            to,
            "second: {compared} answers compared, {different} differ"
        )
    }
}

/// Answers the questions and compares; the answers are in the questions' order, one a line.
pub fn compare(questions: &[u8], answers: &[u8]) -> Comparison {
    let mut comparison = Comparison::default();
    let mut got = answers.split_inclusive(|&byte| byte == b'\n');
    for (number, line) in lines::questions(questions) {
        let question = format!("line {number}: {}", shown(Some(line)));
        comparison.compared += 1;
        let expected = answer(line) + "\n";
        let got = got.next();
        if !got.is_some_and(|got| is_accepted(line, got)) {
            comparison.add(&question, Some(expected.as_bytes()), got);
        }
    }
    for surplus in got {
        comparison.add("after the last question", None, Some(surplus));
    }
    comparison
}

/// Which direction is found is left open (document 02, W13): any is right that is accepted if it is
/// offered, with the same floor.
fn is_accepted(line: &[u8], got: &[u8]) -> bool {
    let parsed = || {
        let (direction, floor) = str::from_utf8(got)
            .ok()?
            .strip_prefix("ok ")?
            .split_once(" @")?;
        let (u, v) = direction.split_once(' ')?;
        let answer = offered(line, point(u.parse().ok()?, v.parse().ok()?))?;
        Some(answer + "\n" == format!("yes @{floor}"))
    };
    parsed().unwrap_or(false)
}

fn shown(line: Option<&[u8]>) -> String {
    let Some(line) = line else {
        return "(nothing)".to_string();
    };
    let front = &line[..line.len().min(MOST_SHOWN)];
    let rest = line.len() - front.len();
    let text = front.escape_ascii();
    if rest > 0 {
        format!("{text} .. and {rest} characters more")
    } else {
        text.to_string()
    }
}

#[cfg(test)]
mod tests {
    use super::*;

    const QUESTIONS: &[u8] = b"\n# two\njudge | 0 0\nrelation | 0 0 | 1 0\n";

    fn told(answers: &[u8]) -> (usize, String) {
        let comparison = compare(QUESTIONS, answers);
        let mut text = Vec::new();
        comparison.tell(&mut text).expect("a vector takes all");
        let text = String::from_utf8(text).expect("what is told is plain text");
        (comparison.different, text)
    }

    #[test]
    fn equal_answers_do_not_differ() {
        let (different, text) = told(b"ok 1 @0\nok apart @0\n");
        assert_eq!(
            (different, &text[..]),
            (0, "second: 2 answers compared, 0 differ\n")
        );
    }

    #[test]
    fn a_difference_is_told_with_its_question() {
        let (different, text) = told(b"ok 1 @0\nok touching @0\n");
        assert_eq!(different, 1);
        let lines: Vec<&str> = text.lines().collect();
        assert!(
            lines[0].starts_with("line 4: relation | 0 0 | 1 0"),
            "{text}"
        );
        assert!(
            lines[1].contains("ok apart") && lines[2].contains("ok touching"),
            "{text}"
        );
    }

    #[test]
    fn any_direction_is_right_that_is_accepted() {
        let wrong =
            |answer: &str| compare(b"find | @9 0 0 | @9 3 1\n", answer.as_bytes()).different;
        for right in [
            "ok 1 0 @9\n",
            "ok 0 1 @9\n",
            "ok 1 -2 @9\n",
            "ok 2000000 -1999999 @9\n",
        ] {
            assert_eq!(wrong(right), 0, "{right}");
        }
        for other in [
            "ok 2 0 @9\n",
            "ok 1 -3 @9\n",
            "ok 1 0 @0\n",
            "ok 0 0 @9\n",
            "ok none @9\n",
            "ok 1 0 @9",
            "ok 1 @9\n",
        ] {
            assert_eq!(wrong(other), 1, "{other}");
        }
        assert_eq!(compare(b"find | 0 0 | 0 0\n", b"ok 1 0 @0\n").different, 1);
        assert_eq!(compare(b"find | 0 0 | 0 0\n", b"ok none @0\n").different, 0);
    }

    #[test]
    fn missing_and_surplus_answers_differ() {
        assert_eq!(told(b"ok 1 @0\n").0, 1);
        assert_eq!(told(b"ok 1 @0\nok apart @0").0, 1);
        assert_eq!(told(b"ok 1 @0\nok apart @0\nok 7 @0\n").0, 1);
        assert_eq!(told(b"").0, 2);
    }
}
