//! `cocklesway diff`: what changed between two maps, and which answers stay.
use super::ask::JSON;
use super::chosen::{NOTHING, answered, say, whole_map};
use super::settling::Answers;
use crate::changes::{Change, changes};
use crate::command::{Command, Console, Status, Trouble};
use crate::json::Json;
use crate::name::Name;
use crate::object;
use crate::options::{Arguments, Known, Misuse};
use crate::refusal::reason;

/// How it is called, and what it does.
pub const COMMAND: Command = Command {
    name: "diff",
    takes: "OLD NEW",
    does: "says what changed between two maps, how far, and which settled answers stay",
    options: &[ANSWERS, ALL, JSON],
    page: "\
Names are compared. Of a shape that changed it says how far it reaches beyond the old one, and the old
one beyond it: the library's `excess`, rounded up. Comparing the lists is of this program.

With --answers it reads question lines, as in a map, and says of each whether its answer stays for the
new map without asking again. By what is proved of `excess`, shapes that were w mm apart are at least
w - e - f mm apart after changes by e and f mm; so it is with a passage and with a drive that met
nothing; and shapes inside the old ones take nothing away. Only the old map is asked. An answer may be
after its question as one more field, `ok` and millimetres, apart, touching, overlapping, blocked or
never: it must be that of the old map. A line `nearest | SHAPE` or `nearest | @FLOOR X Y` is about the
nearest obstacle of the floor. It stays if no shape that was added or changed is nearer; which shapes
are to be compared is decided by this program.

    cocklesway diff old.txt new.txt --answers settled.txt

    clearance | linen-store | wall | ok 3200
    passage | linen-store | bed | cart
    nearest | @2 3500 100 | ok linen-store
",
    run,
};

const ANSWERS: Known = Known {
    name: "--answers",
    value: Some("FILE"),
    does: "questions that the old map has answered",
    many: false,
};

const ALL: Known = Known {
    name: "--all",
    value: None,
    does: "shapes that are the same are listed too",
    many: false,
};

fn run(arguments: &Arguments, console: &mut Console<'_>) -> Result<Status, Trouble> {
    let json = arguments.has(JSON.name);
    let [old, new] = arguments.files.as_slice() else {
        let words = "two maps are needed: OLD NEW";
        return Err(Misuse::Other(words.to_string()).into());
    };
    let (old, _) = whole_map(std::slice::from_ref(old), console, NOTHING)?;
    let (new, _) = whole_map(std::slice::from_ref(new), console, NOTHING)?;
    let found = answered(console, json, changes(old.map(), new.map()), reason)?;
    for change in &found {
        if json || arguments.has(ALL.name) || !matches!(change, Change::Same(_)) {
            say(console, json, &change.sentence(), || members(change))?;
        }
    }
    if !json {
        console.say(&summary(&found))?;
    }
    match arguments.value(ANSWERS.name) {
        Some(file) => Answers {
            old,
            new,
            found,
            json,
        }
        .judged(console, file),
        None => Ok(Status::Fine),
    }
}

fn summary(found: &[Change]) -> String {
    let count = |word: &str| found.iter().filter(|change| change.word() == word).count();
    let words = ["same", "changed", "elsewhere", "added", "removed"];
    let counts = words.map(|word| format!("{word}: {}", count(word)));
    counts.join(", ")
}

fn members(change: &Change) -> Vec<(&'static str, Json)> {
    let [old, new] = change.shapes().map(|shape| shape.map(object::shape_of));
    let name = change.name().map(Name::as_str);
    let mut members = vec![
        ("change", change.word().into()),
        ("name", name.into()),
        ("old", old.unwrap_or(Json::Null)),
        ("new", new.unwrap_or(Json::Null)),
    ];
    if let Change::Changed { beyond, back, .. } = change {
        members.extend([("up", beyond.up().into()), ("back", back.up().into())]);
    }
    members
}
