//! What came of a line, as one line of text.
use crate::escape::quoted;
use crate::refusal::reason;
use crate::sentence;
use crate::session::{Event, Outcome};
use crate::unit::Unit;
use std::fmt::Write;

/// Returns the sentence of an event, without its place.
#[must_use]
pub fn sentence(event: &Event) -> String {
    match &event.outcome {
        Outcome::Defined { shape, earlier } => {
            let mut said = sentence::defined(shape);
            if let Some(earlier) = earlier {
                // Writing to a string cannot fail.
                let _ = write!(said, ", in place of the one of {earlier}");
            }
            said
        }
        Outcome::Answered { answer, earlier } => {
            let mut said = sentence::sentence(answer);
            if let Some(earlier) = earlier {
                let _ = write!(said, ", in place of the one of {earlier}");
            }
            said
        }
        Outcome::Unasked(question) => format!("{} was not asked", question.word()),
        Outcome::Listed(shapes) if shapes.is_empty() => "no shape has a name".to_string(),
        Outcome::Listed(shapes) => {
            let all: Vec<String> = shapes.iter().map(sentence::defined).collect();
            all.join("; ")
        }
        Outcome::Refused(found) => refused(event, found.refusal.number(), &reason(found)),
        Outcome::Removed { name, at } => match &event.name {
            Some(own) => format!("`{own}` is refused: `{name}` was refused at {at}"),
            None => format!("not asked: `{name}` was refused at {at}"),
        },
        Outcome::NotWhole { found, unit } => refused(event, 18, &not_whole(found, *unit)),
        Outcome::Measured(unit) => format!("lengths are in {unit} from here on"),
        Outcome::Unreadable(fault) => fault.to_string(),
    }
}

/// The number of a refusal and its reason, after the name that is not defined by it.
fn refused(event: &Event, number: u64, reason: &str) -> String {
    let what = match &event.name {
        Some(name) => format!("`{name}` is refused"),
        None => "refused".to_string(),
    };
    format!("{what} ({number}): {reason}")
}

/// Returns why a length is refused 18.
#[must_use]
pub fn not_whole(found: &str, unit: Unit) -> String {
    format!("{} {unit} is no whole number of millimetres", quoted(found))
}
