//! Answers and refusals as JSON: the objects of `cocklesway ask --json`, with their sentences.
use crate::answer::{AboutTwo, Answer, Refused, ask};
use crate::distance::Distance;
use crate::given::{Corner, Edge, Given};
use crate::json::Json;
use crate::name::Name;
use crate::object::object;
use crate::place::Place;
use crate::question::Question;
use crate::report::sentence;
use crate::sentence::nearest;
use crate::session::{Event, Outcome};

/// Members of an object.
pub type Members = Vec<(&'static str, Json)>;

/// Returns what came of a question that is on no line. A distance is also there in words.
#[must_use]
pub fn told(outcome: Outcome) -> Json {
    let distance = match &outcome {
        Outcome::Answered { answer, .. } => distance(answer),
        _ => None,
    };
    let Json::Object(mut members) = object(&nowhere(outcome)) else {
        return Json::Null;
    };
    members.retain(|(key, _)| *key != "file" && *key != "line");
    members.extend(distance.map(|distance| ("distance", distance.to_string().into())));
    Json::Object(members)
}

/// How near two shapes are, how much room a cart has, or how far it comes.
fn distance(answer: &Answer) -> Option<Distance> {
    match answer {
        Answer::Two(pair, AboutTwo::Clearance(found)) => {
            nearest(pair, *found).map(|(distance, _)| distance)
        }
        Answer::Passage(_, found) => {
            let way = found.way?;
            let squared = way.across.map(|part| u64::from(part.unsigned_abs()).pow(2));
            let turn = way.low.abs_diff(way.high);
            Some(Distance::of_turn(turn, squared.iter().sum(), way.width))
        }
        Answer::Contact(drive, found) => {
            let meeting = found.meeting?;
            let way = Edge(Corner(drive.from), Corner(drive.to));
            let part = [meeting.numerator, meeting.denominator];
            Some(Distance::of_part(part, way.squared(), meeting.safe))
        }
        _ => None,
    }
}

/// Asks a question, and returns what came of it.
#[must_use]
pub fn asked(question: Question) -> Json {
    match ask(question) {
        Ok(answer) => answered(answer),
        Err(refused) => told(Outcome::Refused(refused)),
    }
}

/// Returns an answer.
#[must_use]
pub fn answered(answer: Answer) -> Json {
    told(Outcome::Answered {
        answer,
        earlier: None,
    })
}

/// Returns the state of what was refused, and the sentence of the refusal.
#[must_use]
pub fn refused(refused: Refused) -> Members {
    let sentence = sentence(&nowhere(Outcome::Refused(refused)));
    vec![("state", "refused".into()), ("sentence", sentence.into())]
}

/// Returns the name of a shape.
#[must_use]
pub fn name(shape: &Given) -> Json {
    shape.name.as_ref().map(Name::as_str).into()
}

fn nowhere(outcome: Outcome) -> Event {
    Event {
        place: Place {
            file: "".into(),
            line: 0,
        },
        name: None,
        outcome,
    }
}

/// Returns a shape as a field of a question line: its name, or its floor and corners.
#[must_use]
pub fn field(shape: &Given) -> String {
    if let Some(name) = &shape.name {
        return name.to_string();
    }
    let numbers = shape.numbers.iter().map(i32::to_string);
    let floor = shape.floor.map(|floor| format!("@{floor}"));
    let words: Vec<String> = floor.into_iter().chain(numbers).collect();
    words.join(" ")
}

/// Returns lines of questions, so that they can be asked again with `cocklesway ask`.
#[must_use]
pub fn lines(lines: Vec<String>) -> Json {
    Json::List(lines.into_iter().map(Json::from).collect())
}
