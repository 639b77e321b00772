//! `cocklesway import`: shapes of another program's file as a map.
use super::ask::status_of;
use crate::answer::made;
use crate::command::{Command, Console, Status, Trouble};
use crate::formats::{Feature, Where, read};
use crate::given::Given;
use crate::lines::text_of;
use crate::options::{Arguments, Known, Misuse};
use crate::question::Making;
use crate::report::sentence;
use crate::session::Session;
use crate::source::Source;
use crate::unit::Unit;

/// How it is called, and what it does.
pub const COMMAND: Command = Command {
    name: "import",
    takes: "FILE",
    does: "writes shapes of a WKT or GeoJSON file as a map",
    options: &[FLOOR, UNIT],
    page: "\
WKT has one geometry a line: POINT, LINESTRING of two points, or POLYGON without holes, and before it a
name and a floor after @, if there are any. GeoJSON is a FeatureCollection, a Feature or a geometry of
these three kinds, with the properties `name` and `floor`; a floor of null is an outline, and so is the
word `outline` before a name in WKT. A shape without a name is called shape- and its number.

Coordinates are read exactly, in the unit that is given. One that is no whole number of millimetres is
refused (18), and then nothing is written. Rings are written as they are: the map's line `ring` turns
them into shapes. The map is judged, and what is refused in it is said.

    cocklesway import plan.geojson --unit m > map.txt
",
    run,
};

const FLOOR: Known = Known {
    name: "--floor",
    value: Some("N"),
    does: "the floor of shapes that have none; 0 without it",
    many: false,
};

const UNIT: Known = Known {
    name: "--unit",
    value: Some("UNIT"),
    does: "mm, cm or m; mm without it",
    many: false,
};

fn run(arguments: &Arguments, console: &mut Console<'_>) -> Result<Status, Trouble> {
    let [_] = arguments.files.as_slice() else {
        return Err(Misuse::Other("one file is needed".to_string()).into());
    };
    let unit = value(arguments, &UNIT, "mm, cm or m", Unit::read)?.unwrap_or_default();
    let floor = value(arguments, &FLOOR, "a floor from 0 to 65535", |text| {
        text.parse().ok()
    })?;
    let mut map = String::new();
    for source in console.files(&arguments.files)? {
        let text = text_of(&source.bytes);
        let features = match read(&text, unit) {
            Ok(features) => features,
            Err(wrong) => return said(console, &source, &wrong),
        };
        for (number, feature) in (1..).zip(&features) {
            map.push_str(&line(feature, number, floor.unwrap_or(0)));
        }
    }
    console.output.write_all(map.as_bytes())?;
    judged(console, map)
}

/// The value of an option.
fn value<T>(
    arguments: &Arguments,
    option: &Known,
    wanted: &'static str,
    read: impl Fn(&str) -> Option<T>,
) -> Result<Option<T>, Misuse> {
    let Some(value) = arguments.value(option.name) else {
        return Ok(None);
    };
    let text = value.to_string_lossy();
    let wrong = || Misuse::BadValue(option.name, text.to_string(), wanted);
    read(&text).map(Some).ok_or_else(wrong)
}

/// Says all that is wrong with a file.
fn said(
    console: &mut Console<'_>,
    source: &Source,
    wrong: &[crate::formats::Wrong],
) -> Result<Status, Trouble> {
    let mut status = Status::Refused;
    for one in wrong {
        console.complain(&format!("{}:{}: {}", source.name, one.line, one.why))?;
        if !one.why.is_refusal() {
            status = Status::Wrong;
        }
    }
    console.complain("nothing is written, since the file is not whole")?;
    Ok(status)
}

/// The line of a map for a shape. An outline is written as a shape has to be, if it can be.
fn line(feature: &Feature, number: usize, unsaid: u16) -> String {
    let name = feature
        .called(number)
        .map_or(String::new(), |name| name.to_string());
    let floor = match feature.place {
        Where::Outline => return outline(feature, &name),
        Where::Unsaid => unsaid,
        Where::Floor(floor) => floor,
    };
    format!("ring | {name} | @{floor} {}\n", joined(&feature.numbers))
}

fn outline(feature: &Feature, name: &str) -> String {
    let given = Given {
        name: None,
        numbers: feature.numbers.as_slice().into(),
        floor: None,
    };
    let shape = made(Making::Ring(given.clone())).unwrap_or(given);
    format!("outline | {name} | {}\n", joined(&shape.numbers))
}

fn joined(numbers: &[i32]) -> String {
    let words: Vec<String> = numbers.iter().map(i32::to_string).collect();
    words.join(" ")
}

/// Judges the map that was written.
fn judged(console: &mut Console<'_>, map: String) -> Result<Status, Trouble> {
    let source = Source {
        name: "map".into(),
        bytes: map.into_bytes(),
    };
    let mut status = Status::Fine;
    Session::of_definitions().read(&source, |event| {
        status = status.max(status_of(&event));
        match status_of(&event) {
            Status::Fine => Ok(()),
            _ => console.complain(&format!("{}: {}", event.place, sentence(&event))),
        }
    })?;
    Ok(status)
}
