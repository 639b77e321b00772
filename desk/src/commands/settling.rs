//! Which settled answers stay, for `cocklesway diff`.
use super::chosen::say;
use crate::answer::{AboutTwo, Answer, Refused, ask};
use crate::changes::Change;
use crate::command::{Console, Status, Trouble};
use crate::escape::quoted;
use crate::fault::Fault;
use crate::fields::{Fields, Part, Unread};
use crate::floor::Floor;
use crate::given::Given;
use crate::json::Json;
use crate::lines::{Line, Word, lines, text_of};
use crate::object::{self, relation};
use crate::place::Place;
use crate::question::{Around, Question};
use crate::refusal::reason;
use crate::report::not_whole;
use crate::session::Session;
use crate::settled::{Verdict, nearest, verdict};
use crate::source::Source;
use std::ffi::OsStr;

/// Settled answers of an old map, held against a new one.
pub struct Answers {
    /// The old map.
    pub old: Session,
    /// The new map.
    pub new: Session,
    /// What changed.
    pub found: Vec<Change>,
    /// Whether each answer is an object.
    pub json: bool,
}

/// A question that is read by the shapes of both maps.
enum Both {
    /// A question line of a map.
    Line(Question, Question),
    /// The nearest obstacle of a floor.
    Nearest(Given, Given),
}

/// Why a line is not judged.
enum Unjudged {
    /// It cannot be read, on this line of the file.
    Unread(usize, String),
    /// The new map has no shape of this name.
    Gone(String),
}

impl Answers {
    /// Says of each question of a file whether its answer stays.
    ///
    /// # Errors
    /// The file cannot be read, or standard output cannot be written.
    pub fn judged(&self, console: &mut Console<'_>, file: &OsStr) -> Result<Status, Trouble> {
        let mut status = Status::Fine;
        let (mut stay, mut anew) = (0, 0);
        for source in console.sources(&[file.to_os_string()])? {
            let text = text_of(&source.bytes);
            for line in lines(&source.bytes, &text) {
                match self.line(console, &source, line)? {
                    Ok(true) => stay += 1,
                    Ok(false) => anew += 1,
                    Err(other) => status = status.max(other),
                }
            }
        }
        if !self.json {
            console.say(&format!(
                "answers that stay: {stay}, to be asked anew: {anew}"
            ))?;
        }
        Ok(status)
    }

    /// Says whether the answer of a line stays.
    fn line(
        &self,
        console: &mut Console<'_>,
        source: &Source,
        mut line: Line<'_>,
    ) -> Result<Result<bool, Status>, Trouble> {
        let was = answer_of(&mut line);
        let place = |line| Place {
            file: source.name.clone(),
            line,
        };
        let both = match self.read(&line) {
            Ok(both) => both,
            Err(Unjudged::Unread(number, words)) => {
                console.complain(&format!("{}: {words}", place(number)))?;
                return Ok(Err(Status::Wrong));
            }
            Err(Unjudged::Gone(name)) => {
                self.gone(console, &place(line.number), &name)?;
                return Ok(Err(Status::Fine));
            }
        };
        self.say(console, &place(line.number), &both, was.as_deref())
    }

    /// Says whether an answer stays.
    fn say(
        &self,
        console: &mut Console<'_>,
        place: &Place,
        both: &Both,
        was: Option<&str>,
    ) -> Result<Result<bool, Status>, Trouble> {
        match self.verdict(both, was) {
            Ok(Ok(verdict)) => {
                let sentence = format!("{place}: {}", verdict.sentence(&both.shown()));
                say(console, self.json, &sentence, || {
                    of_verdict(place, &both.shown(), &verdict)
                })?;
                Ok(Ok(verdict.stays()))
            }
            Ok(Err(wrong)) => {
                console.complain(&format!("{place}: {wrong}"))?;
                Ok(Err(Status::Wrong))
            }
            Err(refused) => {
                self.refused(console, place, &refused)?;
                Ok(Err(Status::Refused))
            }
        }
    }

    /// Whether the answer stays, or what is wrong with the answer that is given.
    fn verdict(&self, both: &Both, was: Option<&str>) -> Result<Result<Verdict, String>, Refused> {
        let found = match both {
            Both::Line(old, new) => (verdict(old, new)?, short_of(old)?),
            Both::Nearest(old, new) => {
                let maps = [self.old.map(), self.new.map()];
                let floor = Floor::of(maps[0], old.floor.unwrap_or_default(), None)?;
                let (near, _) = floor.nearest(old, floor.position(old))?;
                let name = floor.shape(near).map(Given::to_string);
                (nearest(maps, &self.found, [old, new])?, name)
            }
        };
        Ok(match (found, was.map(quoted)) {
            ((verdict, _), None) => Ok(verdict),
            ((_, None), Some(was)) => Err(format!("it has no short answer: leave {was} out")),
            ((verdict, Some(found)), Some(was)) if quoted(&found) == was => Ok(verdict),
            ((_, Some(found)), Some(was)) => Err(format!(
                "the old map answers {}, and not {was}",
                quoted(&found)
            )),
        })
    }

    fn gone(&self, console: &mut Console<'_>, place: &Place, name: &str) -> Result<(), Trouble> {
        let name = quoted(name);
        let sentence = format!("{place}: not to be asked any more: the new map has no {name}");
        say(console, self.json, &sentence, || {
            let mut members = of_place(place);
            members.push(("gone", true.into()));
            members
        })
    }

    fn refused(
        &self,
        console: &mut Console<'_>,
        place: &Place,
        refused: &Refused,
    ) -> Result<(), Trouble> {
        let (number, reason) = (refused.refusal.number(), reason(refused));
        let sentence = format!("{place}: refused ({number}): {reason}");
        say(console, self.json, &sentence, || {
            let mut members = of_place(place);
            members.push(("refused", object::refusal(refused.refusal, reason.clone())));
            members
        })
    }

    /// Reads a question by the shapes of both maps.
    fn read(&self, line: &Line<'_>) -> Result<Both, Unjudged> {
        let words = |map: &str, unread| match unread {
            Unread::Fault { line, fault } => {
                Unjudged::Unread(line, format!("by the {map} map, {fault}"))
            }
            Unread::Removed { line, name, at } => {
                Unjudged::Unread(line, format!("`{name}` was refused at {at}"))
            }
            Unread::NotWhole { line, found, unit } => {
                Unjudged::Unread(line, format!("refused (18): {}", not_whole(&found, unit)))
            }
        };
        let of_new = |unread| match unread {
            Unread::Fault {
                fault: Fault::UnknownName { found, .. },
                ..
            } => Unjudged::Gone(found),
            other => words("new", other),
        };
        if matches!(line.words(0), [word] if word.text == "nearest") && line.fields.len() == 2 {
            let old = around(&self.old, line).map_err(|unread| words("old", unread))?;
            return Ok(Both::Nearest(old, around(&self.new, line).map_err(of_new)?));
        }
        let old = self
            .old
            .question_of(line)
            .map_err(|unread| words("old", unread))?;
        Ok(Both::Line(old, self.new.question_of(line).map_err(of_new)?))
    }
}

/// The shape of a line `nearest | SHAPE`.
fn around(session: &Session, line: &Line<'_>) -> Result<Given, Unread> {
    let holds = "shape, or @FLOOR and an outline";
    let part = Part {
        holds,
        optional: false,
    };
    Fields::new("nearest", &[part], line, session.map())?.shape_on_floor()
}

impl Both {
    /// The question that is shown.
    fn shown(&self) -> Question {
        match self {
            Both::Line(_, new) => new.clone(),
            Both::Nearest(_, shape) => Question::Nearest(Around {
                log: Vec::new(),
                shape: shape.clone(),
                but: None,
            }),
        }
    }
}

/// Takes the answer off a line: its last field, if that begins with `ok` and has more words.
fn answer_of(line: &mut Line<'_>) -> Option<String> {
    let is_answer = |words: &[Word<'_>]| matches!(words, [first, _, ..] if first.text == "ok");
    let field = line.fields.pop_if(|field| is_answer(&field.words))?;
    let words: Vec<&str> = field.words.iter().skip(1).map(|word| word.text).collect();
    Some(words.join(" "))
}

/// The short answer to a question of the old map.
fn short_of(question: &Question) -> Result<Option<String>, Refused> {
    ask(question.clone()).map(|answer| short(&answer))
}

/// The short answer to a question.
fn short(answer: &Answer) -> Option<String> {
    match answer {
        Answer::Two(_, AboutTwo::Clearance(found)) => Some(found.rounded().to_string()),
        Answer::Two(_, AboutTwo::Relation(found)) => Some(relation(found.relation).to_string()),
        Answer::Passage(_, found) => Some(
            found
                .way
                .map_or("blocked".to_string(), |way| way.width.to_string()),
        ),
        Answer::Contact(_, found) => Some(
            found
                .meeting
                .map_or("never".to_string(), |met| met.safe.to_string()),
        ),
        _ => None,
    }
}

fn of_place(place: &Place) -> Vec<(&'static str, Json)> {
    vec![("file", (&*place.file).into()), ("line", place.line.into())]
}

fn of_verdict(place: &Place, question: &Question, verdict: &Verdict) -> Vec<(&'static str, Json)> {
    let mut members = of_place(place);
    members.push(("question", question.word().into()));
    members.push(("stays", verdict.stays().into()));
    match verdict {
        Verdict::Stays { was, lost } => {
            let least = was.saturating_sub(*lost);
            members.extend([("was", (*was).into()), ("least", least.into())]);
        }
        Verdict::Nearest(near) => members.push(("name", near.to_string().into())),
        Verdict::Same | Verdict::Anew(_) => {}
    }
    members
}
