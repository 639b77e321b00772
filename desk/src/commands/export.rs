//! `cocklesway export`: a map in the format of other programs.
use super::chosen::{FLOOR, number, whole_map};
use crate::command::{Command, Console, Status, Trouble};
use crate::floor::is_thing;
use crate::formats::{geojson, wkt};
use crate::given::Given;
use crate::map::Map;
use crate::options::{Arguments, Known, Misuse};

/// How it is called, and what it does.
pub const COMMAND: Command = Command {
    name: "export",
    takes: "MAP..",
    does: "writes a map as WKT or GeoJSON",
    options: &[AS, FLOOR],
    page: "\
Written are all shapes and outlines of the map, or those of one floor, in whole millimetres. What was
grown, summed or mirrored is left out. In WKT the name and the floor after @ are before the geometry. In
GeoJSON they are the properties `name` and `floor`; coordinates are millimetres of the floor, and not
degrees. `cocklesway import` reads both back, with the same shapes.

    cocklesway export map.txt --as geojson > plan.geojson
",
    run,
};

const AS: Known = Known {
    name: "--as",
    value: Some("FORMAT"),
    does: "wkt or geojson",
    many: false,
};

fn run(arguments: &Arguments, console: &mut Console<'_>) -> Result<Status, Trouble> {
    let Some(format) = arguments.value(AS.name) else {
        return Err(Misuse::Other(format!("{} wkt or {0} geojson is needed", AS.name)).into());
    };
    let format = format.to_string_lossy();
    let write: fn(&[Given]) -> String = match &*format {
        "wkt" => as_wkt,
        "geojson" => as_geojson,
        other => {
            let (other, wanted) = (other.to_string(), "wkt or geojson");
            return Err(Misuse::BadValue(AS.name, other, wanted).into());
        }
    };
    let (session, _) = whole_map(&arguments.files, console, "nothing is written")?;
    let shapes = chosen(arguments, session.map())?;
    console.output.write_all(write(&shapes).as_bytes())?;
    Ok(Status::Fine)
}

/// All shapes and outlines, or those of one floor.
fn chosen(arguments: &Arguments, map: &Map) -> Result<Vec<Given>, Misuse> {
    let mut floor = None;
    if arguments.has(FLOOR.name) {
        floor = Some(number(arguments, map)?);
    }
    let things = map
        .shapes()
        .filter(|(shape, origin)| is_thing(origin) && (floor.is_none() || shape.floor == floor));
    let chosen: Vec<Given> = things.map(|(shape, _)| shape.clone()).collect();
    match (floor, chosen.is_empty()) {
        (Some(floor), true) => Err(Misuse::Other(format!(
            "floor {floor} has no shapes to write"
        ))),
        _ => Ok(chosen),
    }
}

fn as_wkt(shapes: &[Given]) -> String {
    let lines = shapes.iter().map(|shape| wkt::line(shape) + "\n");
    lines.collect()
}

/// One feature a line.
fn as_geojson(shapes: &[Given]) -> String {
    let features: Vec<String> = shapes
        .iter()
        .map(|shape| geojson::feature_of(shape).text())
        .collect();
    let features = features.join(",\n");
    format!("{{\"type\":\"FeatureCollection\",\"features\":[\n{features}\n]}}\n")
}
