//! `cocklesway check`: judges every shape of a map.
use super::ask::{JSON, print, status_of};
use super::chosen::{answered, say};
use crate::command::{Command, Console, Status, Trouble};
use crate::distance::Distance;
use crate::floor::doubles::{alike, overlapping};
use crate::given::{Corner, Given};
use crate::json::Json;
use crate::map::Map;
use crate::options::Arguments;
use crate::progress::Progress;
use crate::refusal::reason;
use crate::report::sentence;
use crate::session::{Event, Outcome, Session};

/// How it is called, and what it does.
pub const COMMAND: Command = Command {
    name: "check",
    takes: "FILE..",
    does: "judges every shape of a map, and says what is wrong with it",
    options: &[JSON],
    page: "\
Every shape, every outline and every named answer is judged and listed, with how far it reaches. Other
questions are read and not asked. Then come shapes of one floor that overlap or are the same shape, and
names that differ only in case: these are no mistakes by themselves. Each two shapes are an answer of
the library; going through the pairs is a loop of this program. The status is 0 if all are shapes and
every line can be read.

    cocklesway check map.txt
",
    run,
};

/// What was found.
#[derive(Clone, Debug, Default, PartialEq, Eq)]
struct Tally {
    shapes: usize,
    replaced: usize,
    refused: usize,
    unreadable: usize,
}

fn run(arguments: &Arguments, console: &mut Console<'_>) -> Result<Status, Trouble> {
    let json = arguments.has(JSON.name);
    let mut session = Session::of_definitions();
    let mut tally = Tally::default();
    let mut status = Status::Fine;
    for source in console.sources(&arguments.files)? {
        session.read(&source, |event| {
            status = status.max(status_of(&event));
            tally.count(&event);
            match (&event.outcome, shape_of(&event)) {
                (Outcome::Unasked(_) | Outcome::Listed(_) | Outcome::Measured(_), _) => Ok(()),
                (_, Some(shape)) if !json => console.say(&format!(
                    "{}: {}{}",
                    event.place,
                    sentence(&event),
                    extent(shape)
                )),
                _ => print(console, json, &event),
            }
        })?;
    }
    remarks(console, json, session.map())?;
    if !json {
        console.say(&tally.summary())?;
    }
    Ok(status)
}

/// Says which shapes overlap or are the same, and which names differ only in case.
fn remarks(console: &mut Console<'_>, json: bool, map: &Map) -> Result<(), Trouble> {
    let mut progress = Progress::new("pairs");
    let doubles = overlapping(map, |done, of| progress.at(console, done, of));
    let doubles = answered(console, json, doubles, reason)?;
    for double in doubles.into_iter().chain(alike(map)) {
        say(console, json, &double.sentence(), || {
            let names = double
                .names
                .each_ref()
                .map(|name| Json::from(name.as_str()));
            vec![
                ("remark", double.word().into()),
                ("floor", double.floor.map(u64::from).into()),
                ("names", Json::List(names.to_vec())),
            ]
        })?;
    }
    Ok(())
}

/// The shape that a line defines.
fn shape_of(event: &Event) -> Option<&Given> {
    match &event.outcome {
        Outcome::Defined { shape, .. } => Some(shape),
        _ => None,
    }
}

/// How large a shape is, by the least rectangle around it: a wrong digit shows here.
fn extent(shape: &Given) -> String {
    let corners = shape.corners();
    let ends = |part: fn(&[i32; 2]) -> i32| {
        let parts = || corners.iter().map(part);
        parts().min().zip(parts().max())
    };
    let (Some((left, right)), Some((bottom, top))) = (ends(|[x, _]| *x), ends(|[_, y]| *y)) else {
        return String::new();
    };
    if corners.len() == 1 {
        return format!(", at {}", Corner([left, bottom]));
    }
    let [wide, high] = [(left, right), (bottom, top)].map(|(from, to)| Distance {
        millimetres: i64::from(to).abs_diff(from.into()),
        exact: true,
    });
    let (from, to) = (Corner([left, bottom]), Corner([right, top]));
    format!(", {wide} by {high}, from {from} to {to}")
}

impl Tally {
    fn count(&mut self, event: &Event) {
        match &event.outcome {
            Outcome::Defined { .. } | Outcome::Answered { .. } => {
                self.shapes += usize::from(!event.replaces());
                self.replaced += usize::from(event.replaces());
            }
            Outcome::Refused(_) | Outcome::Removed { .. } | Outcome::NotWhole { .. } => {
                self.refused += 1;
            }
            Outcome::Unreadable(_) => self.unreadable += 1,
            Outcome::Unasked(_) | Outcome::Listed(_) | Outcome::Measured(_) => {}
        }
    }

    fn summary(&self) -> String {
        let Tally {
            shapes,
            replaced,
            refused,
            unreadable,
        } = self;
        let replaced = match replaced {
            0 => String::new(),
            count => format!("replaced: {count}, "),
        };
        format!("accepted: {shapes}, {replaced}refused: {refused}, unreadable lines: {unreadable}")
    }
}
