//! `cocklesway draw`: a floor as a picture.
use super::chosen::{AT, BELOW, CART, FLOOR, limit, named, number, place, whole_map};
use crate::answer::Refused;
use crate::command::{Command, Console, Status, Trouble};
use crate::given::{Given, Pair};
use crate::map::Map;
use crate::options::{Arguments, Known, Misuse};
use crate::picture::picture;
use crate::picture::scene::{Wishes, scene};
use crate::refusal::reason;
use crate::source;
use std::ffi::OsStr;
use std::fs::{self, File};
use std::io::{self, Write};

/// How it is called, and what it does.
pub const COMMAND: Command = Command {
    name: "draw",
    takes: "FILE..",
    does: "draws all shapes of a floor as a picture (SVG), which every browser shows",
    options: OPTIONS,
    page: "\
Drawn are the shapes of the floor, each with its name, on a grid with coordinates in metres. A gap that
is narrower than 3 pixels is drawn once more, larger, below the map. What was grown, summed or mirrored
is no thing on the floor and is drawn only if it is asked for. If any line of the map is refused or
cannot be read, nothing is drawn.

    cocklesway draw map.txt --floor 2 -o floor.svg
    cocklesway draw map.txt --grow cart --at 3500,0 -o cart.svg
    cocklesway draw map.txt --floor 2 --below 900 --cart cart --drive '0,0 3000,0 3000,2500' -o way.svg

With --below MM the gaps of less than that between obstacles that are apart are marked with
their width; with --cart those that leave the cart less. With --drive the way of the cart's origin is
drawn, what the cart passes over on each leg that is clear, and the cart where it first meets an
obstacle. What is said of them is below the picture, as `cocklesway gaps` and `cocklesway drive` say it.
",
    run,
};

const GROW: &str = "--grow";
const GAP: &str = "--gap";
const TANGENTS: &str = "--tangents";
const SUM: &str = "--sum";
const ALSO: &str = "--also";
const DRIVE: &str = "--drive";
const OUTPUT: &str = "-o";

const fn option(name: &'static str, value: &'static str, does: &'static str, many: bool) -> Known {
    Known {
        name,
        value: Some(value),
        does,
        many,
    }
}

const OPTIONS: &[Known] = &[
    FLOOR,
    option(
        GROW,
        "CART",
        "each obstacle grown by this cart's outline: where its origin must not be",
        false,
    ),
    Known {
        does: "the cart with its origin at this place",
        ..AT
    },
    option(
        GAP,
        "A,B",
        "the line between the nearest points of two shapes",
        true,
    ),
    option(
        TANGENTS,
        "A,B",
        "the four lines that just touch two shapes",
        true,
    ),
    option(SUM, "A,B", "the vector sum of two shapes", true),
    option(
        ALSO,
        "NAME",
        "a named answer that was grown, summed or mirrored",
        true,
    ),
    Known {
        does: "gaps below this number of millimetres are marked",
        ..BELOW
    },
    Known {
        does: "the cart of --below and --drive; that of --grow without it",
        ..CART
    },
    option(
        DRIVE,
        "PLACES",
        "a drive from place to place, as 'X,Y X,Y ..'",
        false,
    ),
    option(
        OUTPUT,
        "FILE",
        "where the picture goes; standard output without it",
        false,
    ),
];

fn run(arguments: &Arguments, console: &mut Console<'_>) -> Result<Status, Trouble> {
    let (session, replaced) = whole_map(&arguments.files, console, "nothing is drawn")?;
    let map = session.map();
    let wishes = Wishes {
        notes: replaced,
        ..wishes(arguments, map)?
    };
    let floor = number(arguments, map)?;
    are_here(&wishes, floor)?;
    let drawn = scene(map, floor, &wishes).and_then(|scene| picture(&scene));
    match drawn {
        Ok(Some(svg)) => write(arguments, console, &svg).map(|()| Status::Fine),
        Ok(None) => Err(Misuse::Other(format!("floor {floor} has no shapes to draw")).into()),
        Err(refused) => {
            console.complain(&refusal(&refused))?;
            Ok(Status::Refused)
        }
    }
}

fn refusal(refused: &Refused) -> String {
    let (word, number) = (refused.question.word(), refused.refusal.number());
    format!("draw: {word} is refused ({number}): {}", reason(refused))
}

fn wishes(arguments: &Arguments, map: &Map) -> Result<Wishes, Misuse> {
    let cart = arguments
        .value(GROW)
        .map(|value| named(GROW, value, map))
        .transpose()?;
    let at = arguments.value(AT.name);
    let at = at.map(|value| place(AT.name, value)).transpose()?;
    if at.is_some() && cart.is_none() {
        return Err(Misuse::Other(format!(
            "{0} needs a cart: {GROW} CART {0} X,Y",
            AT.name
        )));
    }
    let pairs = |option| {
        arguments
            .values(option)
            .map(move |value| pair(option, value, map))
    };
    let also = arguments.values(ALSO).map(|value| named(ALSO, value, map));
    Ok(Wishes {
        notes: Vec::new(),
        also: also.collect::<Result<_, _>>()?,
        cart,
        at,
        gaps: pairs(GAP).collect::<Result<_, _>>()?,
        tangents: pairs(TANGENTS).collect::<Result<_, _>>()?,
        sums: pairs(SUM).collect::<Result<_, _>>()?,
        below: limit(arguments)?,
        ..driven(arguments, map)?
    })
}

/// The cart that drives, and where.
fn driven(arguments: &Arguments, map: &Map) -> Result<Wishes, Misuse> {
    let driven = arguments.value(CART.name);
    let driven = driven
        .map(|value| named(CART.name, value, map))
        .transpose()?;
    let places = arguments.value(DRIVE).unwrap_or_default().to_string_lossy();
    let places = places
        .split_whitespace()
        .map(|word| place(DRIVE, OsStr::new(word)));
    let drive: Vec<[i32; 2]> = places.collect::<Result<_, _>>()?;
    let words = match drive.len() {
        0 if !arguments.has(DRIVE) => None,
        0 | 1 => Some(format!(
            "{DRIVE} needs two places or more: {DRIVE} 'X,Y X,Y ..'"
        )),
        _ if driven.is_none() && !arguments.has(GROW) => {
            Some(format!("{DRIVE} needs a cart: {} CART", CART.name))
        }
        _ => None,
    };
    match words {
        Some(words) => Err(Misuse::Other(words)),
        None => Ok(Wishes {
            driven,
            drive,
            ..Wishes::default()
        }),
    }
}

/// Whether all that is wished for is on the floor: a picture of one floor shows nothing of another. A gap and tangents
/// are between things that have a place, so an outline has none of them.
fn are_here(wishes: &Wishes, floor: u16) -> Result<(), Misuse> {
    let of_pairs = |pairs: &[Pair]| -> Vec<Given> {
        let both = |pair: &Pair| [pair.a.clone(), pair.b.clone()];
        pairs.iter().flat_map(both).collect()
    };
    let placed = [of_pairs(&wishes.gaps), of_pairs(&wishes.tangents)].concat();
    let any = [wishes.also.clone(), of_pairs(&wishes.sums)].concat();
    if let Some(outline) = placed.iter().find(|shape| shape.floor.is_none()) {
        let why = "is an outline, which is nowhere on the floor; `at` puts it at a place";
        return Err(Misuse::Other(format!("{outline} {why}")));
    }
    let elsewhere = |shape: &&Given| shape.floor.is_some_and(|own| own != floor);
    match placed.iter().chain(&any).find(elsewhere) {
        Some(shape) => {
            let own = shape.floor.unwrap_or_default();
            Err(Misuse::Other(format!(
                "{shape} is on floor {own}, and floor {floor} is drawn"
            )))
        }
        None => Ok(()),
    }
}

/// Two names with a comma between them.
fn pair(option: &'static str, value: &OsStr, map: &Map) -> Result<Pair, Misuse> {
    let what = "two names with a comma between them";
    let text = value.to_string_lossy();
    let both = text.split_once(',');
    let (a, b) = both.ok_or_else(|| Misuse::BadValue(option, text.to_string(), what))?;
    Ok(Pair {
        a: named(option, OsStr::new(a), map)?,
        b: named(option, OsStr::new(b), map)?,
    })
}

/// Writes the picture.
fn write(arguments: &Arguments, console: &mut Console<'_>, svg: &str) -> Result<(), Trouble> {
    let Some(path) = arguments.value(OUTPUT).filter(|path| *path != "-") else {
        console.output.write_all(svg.as_bytes())?;
        return Ok(());
    };
    if arguments.files.iter().any(|file| is_same(file, path)) {
        let shown = source::shown(path);
        return Err(Misuse::Other(format!(
            "{shown} is the map; the picture would be written over it"
        ))
        .into());
    }
    to_file(path, svg).map_err(|error| Trouble::Unwritten(source::shown(path), error))
}

/// Whether two paths lead to one file.
fn is_same(one: &OsStr, other: &OsStr) -> bool {
    let whole = |path| fs::canonicalize(path).ok();
    one != "-" && whole(one).is_some() && whole(one) == whole(other)
}

/// Writes a file to the disk. A device may not know how to be synchronised.
fn to_file(path: &OsStr, text: &str) -> io::Result<()> {
    let mut file = File::create(path)?;
    file.write_all(text.as_bytes())?;
    match file.sync_all() {
        Err(error) if error.kind() != io::ErrorKind::InvalidInput => Err(error),
        _ => Ok(()),
    }
}
