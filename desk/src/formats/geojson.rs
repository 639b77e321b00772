//! `GeoJSON`: Point, `LineString` of two positions, and Polygon without holes, alone, in a Feature or in a
//! `FeatureCollection`. A Feature's properties `name` and `floor` are kept; a floor of null is an outline.
use super::value::{self, Is, Value};
use super::{Feature, Where, Why, Wrong, coordinate, name_of};
use crate::given::Given;
use crate::json::Json;
use crate::name::Name;
use crate::unit::Unit;

/// Reads a file.
///
/// # Errors
/// All that is wrong with it.
pub fn read(text: &str, unit: Unit) -> Result<Vec<Feature>, Vec<Wrong>> {
    let file = value::read(text, value::FILE).map_err(|wrong| vec![wrong])?;
    let alone = std::slice::from_ref(&file);
    let members = match kind(&file) {
        Some("FeatureCollection") => file.get("features").and_then(Value::list),
        _ => Some(alone),
    };
    let wanted = "a list of features";
    let missing = || vec![wrong(&file, Why::Expected(wanted, String::new()))];
    let (mut features, mut all) = (Vec::new(), Vec::new());
    for member in members.ok_or_else(missing)? {
        match feature(member, unit) {
            Ok(feature) => features.push(feature),
            Err(wrong) => all.push(wrong),
        }
    }
    if all.is_empty() {
        return Ok(features);
    }
    Err(all)
}

fn wrong(at: &Value, why: Why) -> Wrong {
    let line = at.line;
    Wrong { line, why }
}

fn kind(value: &Value) -> Option<&str> {
    value.get("type").and_then(Value::text)
}

/// Reads a feature, or a geometry alone.
fn feature(member: &Value, unit: Unit) -> Result<Feature, Wrong> {
    let is_feature = kind(member) == Some("Feature");
    let geometry = match member.get("geometry") {
        Some(geometry) if is_feature => geometry,
        None if is_feature => {
            return Err(wrong(member, Why::Expected("a geometry", String::new())));
        }
        _ => member,
    };
    let properties = member.get("properties").filter(|_| is_feature);
    let name = properties.and_then(|own| own.get("name"));
    let floor = properties.and_then(|own| own.get("floor"));
    Ok(Feature {
        name: name.map(name_in).transpose()?.flatten(),
        place: floor.map_or(Ok(Where::Unsaid), floor_in)?,
        numbers: numbers(geometry, unit)?,
        line: member.line,
    })
}

fn name_in(value: &Value) -> Result<Option<Name>, Wrong> {
    match &value.is {
        Is::Null => Ok(None),
        Is::Text(text) => name_of(text).map(Some).map_err(|why| wrong(value, why)),
        _ => Err(wrong(
            value,
            Why::Expected("a name in quotes", shown(value)),
        )),
    }
}

fn floor_in(value: &Value) -> Result<Where, Wrong> {
    let no_floor = || wrong(value, Why::NotAFloor(shown(value)));
    match &value.is {
        Is::Null => Ok(Where::Outline),
        Is::Number(text) => {
            let number = Unit::Millimetre.millimetres_of_exponent(text).ok();
            let floor = number.and_then(|number| number.try_into().ok());
            floor.map(Where::Floor).ok_or_else(no_floor)
        }
        _ => Err(no_floor()),
    }
}

/// What a value looks like in a message.
fn shown(value: &Value) -> String {
    match &value.is {
        Is::Null => "null".to_string(),
        Is::Bool(is) => is.to_string(),
        Is::Number(text) | Is::Text(text) => text.clone(),
        Is::List(_) => "[".to_string(),
        Is::Object(_) => "{".to_string(),
    }
}

/// The points of a geometry.
fn numbers(geometry: &Value, unit: Unit) -> Result<Vec<i32>, Wrong> {
    let no = |why| Err(wrong(geometry, why));
    let coordinates = geometry.get("coordinates");
    match (kind(geometry), coordinates) {
        (Some("Point"), Some(point)) => Ok(position(point, unit)?.to_vec()),
        (Some("LineString"), Some(line)) => match line.list() {
            Some([_, _]) => positions(line, unit),
            _ => no(Why::Geometry(
                "a LineString of two positions is a segment; one of more is no shape",
            )),
        },
        (Some("Polygon"), Some(polygon)) => match polygon.list() {
            Some([ring]) => positions(ring, unit),
            Some([_, _, ..]) => no(Why::Geometry("a polygon with a hole is no convex shape")),
            _ => no(Why::Geometry("a Polygon has a list of one ring")),
        },
        (Some("Point" | "LineString" | "Polygon"), None) => {
            no(Why::Expected("a list of coordinates", String::new()))
        }
        (Some(other), _) => no(Why::Expected(
            "Point, LineString or Polygon",
            other.to_string(),
        )),
        (None, _) => no(Why::Expected("a geometry with its type", shown(geometry))),
    }
}

fn positions(list: &Value, unit: Unit) -> Result<Vec<i32>, Wrong> {
    let Some(positions) = list.list() else {
        return Err(wrong(
            list,
            Why::Expected("a list of positions", shown(list)),
        ));
    };
    let points: Result<Vec<[i32; 2]>, Wrong> = positions
        .iter()
        .map(|point| position(point, unit))
        .collect();
    Ok(points?.concat())
}

fn position(point: &Value, unit: Unit) -> Result<[i32; 2], Wrong> {
    let number = |value: &Value| match &value.is {
        Is::Number(text) => coordinate(text, unit).map_err(|why| wrong(value, why)),
        _ => Err(wrong(value, Why::NotANumber(shown(value)))),
    };
    match point.list() {
        Some([x, y]) => Ok([number(x)?, number(y)?]),
        _ => Err(wrong(
            point,
            Why::Geometry("a position has two numbers, x and y"),
        )),
    }
}

/// Returns the feature of a shape.
#[must_use]
pub fn feature_of(shape: &Given) -> Json {
    let name = shape.name.as_ref().map(Name::as_str);
    let floor = shape.floor.map(u64::from);
    let properties = vec![("name", name.into()), ("floor", floor.into())];
    let (kind, coordinates) = match shape.corners() {
        [point] => ("Point", (*point).into()),
        line @ [_, _] => ("LineString", line.into()),
        ring => {
            let closed: Vec<[i32; 2]> = ring.iter().chain(ring.first()).copied().collect();
            ("Polygon", Json::List(vec![closed.as_slice().into()]))
        }
    };
    let geometry = vec![("type", kind.into()), ("coordinates", coordinates)];
    Json::Object(vec![
        ("type", "Feature".into()),
        ("properties", Json::Object(properties)),
        ("geometry", Json::Object(geometry)),
    ])
}
