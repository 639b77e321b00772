//! WKT, one geometry a line: POINT, LINESTRING of two points, and POLYGON without holes. Before it may be the word
//! `outline`, a name, and a floor after `@`.
use super::{Feature, Where, Why, Wrong, coordinate, name_of};
use crate::given::Given;
use crate::unit::Unit;

/// Reads all lines. Blank ones and those that begin with `#` are passed over.
///
/// # Errors
/// All that is wrong with them.
pub fn read(text: &str, unit: Unit) -> Result<Vec<Feature>, Vec<Wrong>> {
    let (mut features, mut wrong) = (Vec::new(), Vec::new());
    for (line, row) in (1..).zip(text.lines()) {
        let row = row.trim();
        if row.is_empty() || row.starts_with('#') {
            continue;
        }
        match feature(line, row, unit) {
            Ok(feature) => features.push(feature),
            Err(why) => wrong.push(Wrong { line, why }),
        }
    }
    if wrong.is_empty() {
        return Ok(features);
    }
    Err(wrong)
}

/// Reads a line.
fn feature(line: usize, row: &str, unit: Unit) -> Result<Feature, Why> {
    let at = row.find('(').unwrap_or(row.len());
    let (head, body) = row.split_at(at);
    let is_between = |c: char| c.is_whitespace() || matches!(c, '|' | ';' | ',');
    let words: Vec<&str> = head
        .split(is_between)
        .filter(|word| !word.is_empty())
        .collect();
    let wanted = "POINT, LINESTRING or POLYGON";
    let Some((kind, before)) = words.split_last() else {
        return Err(Why::Expected(wanted, first_of(body)));
    };
    let mut signs = Signs {
        tokens: tokens(body),
        unit,
    };
    let numbers = match kind.to_ascii_uppercase().as_str() {
        "POINT" => signs.points(Some(1))?,
        "LINESTRING" => signs.points(Some(2))?,
        "POLYGON" => signs.polygon()?,
        "EMPTY" => return Err(Why::Geometry("an empty geometry is no shape")),
        "Z" | "M" | "ZM" => return Err(Why::Geometry("a point has two numbers, x and y")),
        _ => return Err(Why::Expected(wanted, (*kind).to_string())),
    };
    signs.end()?;
    let (name, place) = named(before)?;
    Ok(Feature {
        name,
        place,
        numbers,
        line,
    })
}

/// The words before a geometry: `outline`, a name and a floor, each of them or none.
fn named(words: &[&str]) -> Result<(Option<crate::name::Name>, Where), Why> {
    let (place, words) = match words {
        ["outline", rest @ ..] => (Where::Outline, rest),
        [rest @ .., floor] if floor.starts_with('@') => {
            let number = floor.strip_prefix('@').unwrap_or_default();
            let number = number
                .parse()
                .map_err(|_| Why::NotAFloor((*floor).to_string()))?;
            (Where::Floor(number), rest)
        }
        all => (Where::Unsaid, all),
    };
    match words {
        [] => Ok((None, place)),
        [name] => Ok((Some(name_of(name)?), place)),
        [_, more, ..] => Err(Why::Expected("one name", (*more).to_string())),
    }
}

/// Brackets, commas and words.
fn tokens(body: &str) -> std::vec::IntoIter<&str> {
    let is_sign = |c: char| matches!(c, '(' | ')' | ',');
    let mut found = Vec::new();
    for part in body.split_whitespace() {
        let mut rest = part;
        while let Some(at) = rest.find(is_sign) {
            let (word, more) = rest.split_at(at);
            let (sign, more) = more.split_at(1);
            found.extend([word, sign].into_iter().filter(|text| !text.is_empty()));
            rest = more;
        }
        found.extend(Some(rest).filter(|text| !text.is_empty()));
    }
    found.into_iter()
}

fn first_of(body: &str) -> String {
    tokens(body).next().unwrap_or_default().to_string()
}

/// What is still to be read of a geometry.
struct Signs<'a> {
    tokens: std::vec::IntoIter<&'a str>,
    unit: Unit,
}

impl Signs<'_> {
    fn sign(&mut self, wanted: &'static str) -> Result<(), Why> {
        match self.tokens.next() {
            Some(found) if wanted.starts_with(found) => Ok(()),
            found => Err(Why::Expected(wanted, found.unwrap_or_default().to_string())),
        }
    }

    /// Reads points between brackets: the given number of them, if one is given.
    fn points(&mut self, count: Option<usize>) -> Result<Vec<i32>, Why> {
        self.sign("( before points")?;
        let mut numbers = Vec::new();
        loop {
            for _ in 0..2 {
                let word = self.tokens.next().unwrap_or_default();
                numbers.push(coordinate(word, self.unit)?);
            }
            match self.tokens.next() {
                Some(",") => {}
                Some(")") => break,
                found => {
                    let found = found.unwrap_or_default().to_string();
                    return Err(Why::Expected(", or ) after two numbers", found));
                }
            }
        }
        match (count, numbers.len() / 2) {
            (Some(1), found) if found != 1 => Err(Why::Geometry("a POINT has one point")),
            (Some(2), found) if found != 2 => Err(Why::Geometry(
                "a LINESTRING of two points is a segment; one of more is no shape",
            )),
            _ => Ok(numbers),
        }
    }

    /// Reads the one ring of a polygon.
    fn polygon(&mut self) -> Result<Vec<i32>, Why> {
        self.sign("( before a ring")?;
        let ring = self.points(None)?;
        match self.tokens.next() {
            Some(")") => Ok(ring),
            Some(",") => Err(Why::Geometry("a polygon with a hole is no convex shape")),
            found => Err(Why::Expected(
                ") after a ring",
                found.unwrap_or_default().to_string(),
            )),
        }
    }

    fn end(&mut self) -> Result<(), Why> {
        match self.tokens.next() {
            None => Ok(()),
            Some(found) => Err(Why::Expected("the end of the line", found.to_string())),
        }
    }
}

/// Returns the line of a shape: its name, its floor and its geometry.
#[must_use]
pub fn line(shape: &Given) -> String {
    let name = shape
        .name
        .as_ref()
        .map_or(String::new(), ToString::to_string);
    let head = match shape.floor {
        Some(floor) => format!("{name} @{floor}"),
        None => format!("outline {name}"),
    };
    format!("{head} {}", geometry(shape.corners()))
}

/// Corners as WKT. A ring is closed.
fn geometry(corners: &[[i32; 2]]) -> String {
    let point = |[x, y]: &[i32; 2]| format!("{x} {y}");
    let list = |corners: &mut dyn Iterator<Item = &[i32; 2]>| -> String {
        let points: Vec<String> = corners.map(point).collect();
        points.join(", ")
    };
    match corners {
        [] => "POINT EMPTY".to_string(),
        [one] => format!("POINT ({})", point(one)),
        [_, _] => format!("LINESTRING ({})", list(&mut corners.iter())),
        [first, ..] => {
            let mut closed = corners.iter().chain([first]);
            format!("POLYGON (({}))", list(&mut closed))
        }
    }
}
