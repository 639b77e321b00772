//! `cocklesway book`: shapes kept in a floor book on disk.
use super::ask::{JSON, status_of};
use super::chosen::{NOTHING, say, whole_map};
use crate::book::disk::All;
use crate::book::shelf::{Failed, Held, Shelf};
use crate::command::{Command, Console, Status, Trouble};
use crate::escape::{escaped, quoted};
use crate::floor::is_thing;
use crate::given::Given;
use crate::json::Json;
use crate::name::Name;
use crate::options::{Arguments, Known, Misuse};
use crate::progress::Progress;
use crate::report::sentence;
use crate::session::Session;
use crate::source::{Source, shown};
use cocklesway::Refusal;
use std::ffi::{OsStr, OsString};
use std::path::Path;

/// How it is called, and what it does.
pub const COMMAND: Command = Command {
    name: "book",
    takes: "init|add|list|read|pack|remove FILE ..",
    does: "keeps shapes in a floor book on disk, which survives a power cut at any moment",
    options: &[BYTES, MAP, JSON],
    page: "\
    cocklesway book init FILE --bytes N            makes a new book of N bytes
    cocklesway book add FILE NAME @FLOOR X Y ..    adds a shape, which takes the place of an older one
    cocklesway book add FILE --map MAP             adds every shape of a map that is on a floor
    cocklesway book list FILE                      says what the book holds
    cocklesway book read FILE [NAME ..]            prints shapes as lines of a map; all without a name
    cocklesway book remove FILE NAME               takes a shape off, by packing the book without it
    cocklesway book pack FILE [--bytes N]          drops older records; N bytes are more room, or less

A record takes 9 bytes and 8 for each corner. FILE is the library's log, byte for byte. FILE.names says
which number has which name, and FILE.lock keeps two programs from changing the book at once.

An addition stores single bytes in the order that is proved: wherever it is stopped, every name reads as
before, or as afterwards. The disk is made sure of what was cleared, of the record before its last byte,
and of that byte. If the power fails between these moments, a disk that keeps later bytes and loses
earlier ones is not covered by the proof. `pack` and `remove` write FILE.new and then rename it. What the
library refuses changes nothing.
",
    run,
};

const BYTES: Known = Known {
    name: "--bytes",
    value: Some("N"),
    does: "how many bytes the book has",
    many: false,
};

const MAP: Known = Known {
    name: "--map",
    value: Some("MAP"),
    does: "the map whose shapes are added",
    many: false,
};

fn run(arguments: &Arguments, console: &mut Console<'_>) -> Result<Status, Trouble> {
    let [verb, file, rest @ ..] = arguments.files.as_slice() else {
        let words = "what to do and a file are needed: cocklesway book list FILE";
        return Err(Misuse::Other(words.to_string()).into());
    };
    let asked = Asked {
        arguments,
        shelf: Shelf::at(Path::new(file)),
        file,
        rest,
        json: arguments.has(JSON.name),
    };
    match verb.to_str() {
        Some("init") => asked.init(console),
        Some("add") => asked.add(console),
        Some("list") => asked.list(console),
        Some("read") => asked.read(console),
        Some("pack") => asked.pack(console),
        Some("remove") => asked.remove(console),
        _ => {
            let verb = quoted(&verb.to_string_lossy());
            let words = format!("`book` has no {verb}: init, add, list, read, pack or remove");
            Err(Misuse::Other(words).into())
        }
    }
}

/// What is asked of a book.
struct Asked<'a> {
    arguments: &'a Arguments,
    shelf: Shelf,
    file: &'a OsStr,
    rest: &'a [OsString],
    json: bool,
}

type Ended = Result<Status, Trouble>;

impl Asked<'_> {
    fn init(&self, console: &mut Console<'_>) -> Ended {
        self.no_more()?;
        let missing = || Misuse::Other(format!("the size is needed: {} N", BYTES.name));
        let bytes = self.size()?.ok_or_else(missing)?;
        let made = self.shelf.init(bytes, &mut All);
        self.done(console, made)?;
        let words = format!("{} is a new book of {bytes} bytes", shown(self.file));
        self.say(console, &words, vec![("bytes", bytes.into())])
    }

    fn add(&self, console: &mut Console<'_>) -> Ended {
        let shapes = match self.arguments.value(MAP.name) {
            Some(map) => {
                self.no_more()?;
                mapped(map, console)?
            }
            None => vec![self.written(console)?],
        };
        let mut progress = Progress::new("shapes added");
        for (position, (name, shape)) in shapes.iter().enumerate() {
            progress.at(console, position, shapes.len());
            let added = self.shelf.add(name, shape.alone(), &mut All);
            self.done(console, added)?;
            let floor = u64::from(shape.floor.unwrap_or(0));
            let words = format!("{name} is in {} on floor {floor}", shown(self.file));
            let members = vec![("name", name.to_string().into()), ("floor", floor.into())];
            self.say(console, &words, members)?;
        }
        Ok(Status::Fine)
    }

    fn list(&self, console: &mut Console<'_>) -> Ended {
        self.no_more()?;
        let held = self.done(console, self.shelf.list())?;
        if held.is_empty() {
            let words = format!("{} holds no shape", shown(self.file));
            return self.say(console, &words, Vec::new());
        }
        for held in &held {
            let (called, count) = (called(held), held.corners.len());
            let corners = if count == 1 { "corner" } else { "corners" };
            let words = format!("{called}: {count} {corners} on floor {}", held.floor);
            self.say(console, &words, members(held))?;
        }
        Ok(Status::Fine)
    }

    fn read(&self, console: &mut Console<'_>) -> Ended {
        let held = if self.rest.is_empty() {
            self.done(console, self.shelf.list())?
        } else {
            let names: Result<Vec<Name>, Misuse> =
                self.rest.iter().map(|word| named(word)).collect();
            let held = names?.iter().map(|name| self.shelf.read(name)).collect();
            self.done(console, held)?
        };
        for held in &held {
            self.say(console, &line(held), members(held))?;
        }
        Ok(Status::Fine)
    }

    fn pack(&self, console: &mut Console<'_>) -> Ended {
        self.no_more()?;
        let packed = self.shelf.pack(None, self.size()?, &mut All);
        let [before, after] = self.done(console, packed)?;
        let file = shown(self.file);
        let words = format!("{file} is packed: its records had {before} bytes and have {after}");
        let members = vec![("before", before.into()), ("after", after.into())];
        self.say(console, &words, members)
    }

    fn remove(&self, console: &mut Console<'_>) -> Ended {
        let [word] = self.rest else {
            return Err(Misuse::Other("`book remove` takes one name".to_string()).into());
        };
        let name = named(word)?;
        let packed = self.shelf.pack(Some(&name), self.size()?, &mut All);
        self.done(console, packed)?;
        let words = format!("{name} is taken off {}", shown(self.file));
        self.say(console, &words, vec![("name", name.to_string().into())])
    }

    /// The shape that is written out in the arguments, read as a line of a map is.
    fn written(&self, console: &mut Console<'_>) -> Result<(Name, Given), Trouble> {
        let Some((name, corners)) = self.rest.split_first() else {
            let words = format!("a name and corners are needed, or {} MAP", MAP.name);
            return Err(Misuse::Other(words).into());
        };
        let name = named(name)?;
        let words: Vec<String> = corners
            .iter()
            .map(|word| escaped(&word.to_string_lossy()))
            .collect();
        let text = format!("shape | {name} | {}\n", words.join(" "));
        let mut session = Session::of_definitions();
        let source = Source {
            name: "the shape".into(),
            bytes: text.into_bytes(),
        };
        let mut status = Status::Fine;
        session.read(&source, |event| {
            status = status.max(status_of(&event));
            match status_of(&event) {
                Status::Fine => Ok::<(), Trouble>(()),
                _ => console.complain(&sentence(&event)),
            }
        })?;
        let mut shapes = session.map().shapes();
        match (status, shapes.next()) {
            (Status::Fine, Some((shape, _))) => Ok((name, shape.clone())),
            (status, _) => Err(Trouble::Said(status.max(Status::Refused))),
        }
    }

    fn no_more(&self) -> Result<(), Misuse> {
        match self.rest.first() {
            None => Ok(()),
            Some(word) => {
                let word = quoted(&word.to_string_lossy());
                Err(Misuse::Other(format!("{word} is one argument too many")))
            }
        }
    }

    fn size(&self) -> Result<Option<usize>, Misuse> {
        let Some(value) = self.arguments.value(BYTES.name) else {
            return Ok(None);
        };
        let text = value.to_string_lossy();
        let wrong = |_| Misuse::BadValue(BYTES.name, text.to_string(), "a count of bytes");
        text.parse().map(Some).map_err(wrong)
    }

    /// Returns what was done. A refusal is an answer; what failed is said on standard error.
    fn done<T>(&self, console: &mut Console<'_>, done: Result<T, Failed>) -> Result<T, Trouble> {
        let (number, words) = match done {
            Ok(done) => return Ok(done),
            Err(Failed::Refused(refusal)) => (refusal.number(), refused(refusal)),
            Err(Failed::NoName(name)) => {
                let words = format!("no record of {} is called {name}", shown(self.file));
                (Refusal::NoRecord.number(), words)
            }
            Err(other) => {
                console.complain(&why(&other))?;
                return Err(Trouble::Said(Status::Wrong));
            }
        };
        let refused = Json::Object(vec![
            ("number", number.into()),
            ("reason", words.as_str().into()),
        ]);
        self.say(
            console,
            &format!("refused ({number}): {words}"),
            vec![("refused", refused)],
        )?;
        Err(Trouble::Said(Status::Refused))
    }

    fn say(
        &self,
        console: &mut Console<'_>,
        words: &str,
        members: Vec<(&'static str, Json)>,
    ) -> Ended {
        say(console, self.json, words, || members)?;
        Ok(Status::Fine)
    }
}

/// The shapes of a map that are on a floor.
fn mapped(map: &OsStr, console: &mut Console<'_>) -> Result<Vec<(Name, Given)>, Trouble> {
    let (session, _) = whole_map(&[map.to_os_string()], console, NOTHING)?;
    let things = session
        .map()
        .shapes()
        .filter(|(_, origin)| is_thing(origin));
    let placed = things.filter(|(shape, _)| shape.floor.is_some());
    let named = placed.filter_map(|(shape, _)| Some((shape.name.clone()?, shape.clone())));
    Ok(named.collect())
}

fn named(word: &OsStr) -> Result<Name, Misuse> {
    let text = word.to_string_lossy();
    Name::read(&text).map_err(|why| Misuse::Other(format!("{} is no name: {why}", quoted(&text))))
}

/// What sentences call a shape: its name, or its number if the file of names has none for it.
fn called(held: &Held) -> String {
    match &held.name {
        Some(name) => name.to_string(),
        None => format!("record_{}", held.number),
    }
}

/// A line of a map.
fn line(held: &Held) -> String {
    let numbers = held.corners.as_flattened().iter();
    let numbers: Vec<String> = numbers.map(i32::to_string).collect();
    format!(
        "shape | {} | @{} {}",
        called(held),
        held.floor,
        numbers.join(" ")
    )
}

fn members(held: &Held) -> Vec<(&'static str, Json)> {
    vec![
        ("name", called(held).into()),
        ("number", u64::from(held.number).into()),
        ("floor", u64::from(held.floor).into()),
        ("corners", held.corners.as_slice().into()),
    ]
}

fn refused(refusal: Refusal) -> String {
    match refusal {
        Refusal::Full => {
            format!(
                "{refusal}; `book pack FILE` drops older records, and with --bytes N it makes room"
            )
        }
        other => other.to_string(),
    }
}

/// Why a book could not be used.
fn why(failed: &Failed) -> String {
    match failed {
        Failed::Refused(refusal) => refusal.to_string(),
        Failed::File(path, error) => format!("{}: {error}", shown(path.as_os_str())),
        Failed::Names(path, why) => format!("{}: {why}", shown(path.as_os_str())),
        Failed::Long(path) => {
            let most = crate::book::shelf::MOST_BYTES >> 20;
            format!("{}: a book has at most {most} MiB", shown(path.as_os_str()))
        }
        Failed::Locked(path) => {
            format!(
                "{}: another program is changing this book",
                shown(path.as_os_str())
            )
        }
        Failed::NoNumber => "all 65,536 numbers of the book have names already".to_string(),
        Failed::NoName(name) => format!("no record is called {name}"),
    }
}
