//! `cocklesway ask`: answers the questions of files.
use crate::answer::{AboutTwo, Answer};
use crate::command::{Command, Console, Status, Trouble};
use crate::object::object;
use crate::options::{Arguments, Known};
use crate::report::sentence;
use crate::session::{Event, Outcome, Session};

/// How it is called, and what it does.
pub const COMMAND: Command = Command {
    name: "ask",
    takes: "FILE..",
    does: "answers the questions of files, by the shapes that these define",
    options: &[JSON],
    page: "\
Files are read whole and their lines answered in order: first the map, then questions. A name is known
to all lines after its definition. Each answer is one line, FILE:LINE: and a sentence. A shape that is
accepted is not answered; one that is refused is, and its name is removed: questions that use it are
not asked.

    cocklesway ask map.txt questions.txt
    echo 'clearance | linen-store | wall' | cocklesway ask map.txt -

A name belongs to one file. If two files define one, nothing is answered: an old map and a new one are
never mixed.

See `cocklesway help map` for how a map is written, and `cocklesway help questions` for what can be asked.
",
    run,
};

/// The option for JSON.
pub const JSON: Known = Known {
    name: "--json",
    value: None,
    does: "one JSON object a line",
    many: false,
};

fn run(arguments: &Arguments, console: &mut Console<'_>) -> Result<Status, Trouble> {
    let json = arguments.has(JSON.name);
    let mut session = Session::new();
    let mut status = Status::Fine;
    for source in console.sources(&arguments.files)? {
        session.read(&source, |event| {
            status = status.max(status_of(&event));
            let is_silent = matches!(
                event.outcome,
                Outcome::Defined { .. } | Outcome::Measured(_)
            );
            let is_said = event.replaces() || !is_silent;
            if is_said {
                print(console, json, &event)
            } else {
                Ok(())
            }
        })?;
    }
    Ok(status)
}

/// Returns how a line that came to this ends the program. A call of a sum in parts may be refused by itself.
#[must_use]
pub fn status_of(event: &Event) -> Status {
    match &event.outcome {
        Outcome::Refused(_) | Outcome::Removed { .. } | Outcome::NotWhole { .. } => Status::Refused,
        Outcome::Unreadable(_) => Status::Wrong,
        Outcome::Answered {
            answer: Answer::Two(_, AboutTwo::Parts(calls)),
            ..
        } if calls.iter().any(|call| call.corners.is_err()) => Status::Refused,
        _ => Status::Fine,
    }
}

/// Writes what came of a line: answers and refusals to standard output, what cannot be read to standard error.
///
/// # Errors
/// It cannot be written.
pub fn print(console: &mut Console<'_>, json: bool, event: &Event) -> Result<(), Trouble> {
    let line = || format!("{}: {}", event.place, sentence(event));
    match event.outcome {
        Outcome::Unreadable(_) => console.complain(&line()),
        _ if json => console.say(&object(event).text()),
        _ => console.say(&line()),
    }
}
