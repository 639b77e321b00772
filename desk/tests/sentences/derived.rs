//! What the numbers of a sentence must be.
use crate::answers::of_answer;
use crate::case::Case;
use crate::refusals::of_refusal;
use crate::said::needs;
use crate::tokens::numbers;

/// Holds the numbers and the deciding words of a sentence against what follows from brute force.
pub fn derive(case: &Case, said: &str) -> Result<(), String> {
    let is_answered = case.answer.starts_with("ok");
    for name in case.names.iter().flatten().filter(|_| is_answered) {
        needs(said, name)?;
    }
    let expected = match case.answer.strip_prefix("ok ") {
        Some(answer) => of_answer(case, answer, said)?,
        None => of_refusal(case, said)?,
    };
    let found = match said.split_once("its bytes are ") {
        Some((before, _)) => numbers(before),
        None => numbers(said.split_once(READING).map_or(said, |(before, _)| before)),
    };
    if found == expected {
        return Ok(());
    }
    Err(format!("numbers {found:?}, and not {expected:?}"))
}

/// After this comes the double that was read.
const READING: &str = " reading ";
