//! A map's file with some shapes changed. All other lines and all comments stay as they are.
use super::outgoing::Bad;
use crate::escape::quoted;
use crate::lines::{Line, lines, text_of};
use crate::map::Map;
use crate::name::Name;
use crate::source::Source;
use std::ops::Range;

/// The most characters of a row before the next corner goes to a row of its own.
const WIDE: usize = 96;

/// A shape as it is to be.
#[derive(Clone, Debug, PartialEq, Eq)]
pub struct Change {
    /// Its name.
    pub name: Name,
    /// Its floor.
    pub floor: u16,
    /// Its corners; without any it is taken off the map.
    pub corners: Vec<[i32; 2]>,
}

/// Rows that are replaced by others.
struct Edit {
    rows: Range<usize>,
    by: Vec<Vec<u8>>,
}

/// Returns the bytes of a file after changes. The map is that of the file.
///
/// # Errors
/// A name is that of an outline or of an answer, which is not written as a shape.
pub fn changed(source: &Source, map: &Map, changes: &[Change]) -> Result<Vec<u8>, Bad> {
    let text = text_of(&source.bytes);
    let lines = lines(&source.bytes, &text);
    let mut rows: Vec<&[u8]> = source.bytes.split(|&byte| byte == b'\n').collect();
    let is_dos = rows.first().is_some_and(|row| row.ends_with(b"\r"));
    let mut edits = Vec::new();
    let mut added = Vec::new();
    for change in changes {
        match definition(&lines, map, change)? {
            Some(line) => edits.push(edit(line, &rows, change)),
            None => added.extend(row_of(b"", change)),
        }
        let earlier = lines.iter().filter(|line| is_earlier(line, map, change));
        edits.extend(earlier.map(|line| edit(line, &rows, change)));
    }
    if !added.is_empty() && rows.last().is_some_and(|row| row.is_empty()) {
        rows.pop();
        added.push(Vec::new());
    }
    edits.push(Edit {
        rows: rows.len()..rows.len(),
        by: added,
    });
    Ok(joined(&rows, edits, is_dos))
}

/// The line that defines a shape last; nothing if it is new.
fn definition<'a>(
    lines: &'a [Line<'a>],
    map: &Map,
    change: &Change,
) -> Result<Option<&'a Line<'a>>, Bad> {
    let Some(item) = map.get(&change.name) else {
        return Ok(None);
    };
    let is_there = |line: &&Line<'_>| rows_of(line).contains(&(item.place.line.saturating_sub(1)));
    match lines.iter().find(is_there) {
        Some(line) if matches!(line.words(0), [word] if word.text == "shape") => Ok(Some(line)),
        _ => {
            let name = quoted(change.name.as_str());
            Err(Bad::request(format!(
                "{name} is not written as a shape, so it cannot be changed"
            )))
        }
    }
}

/// Whether a line defines a shape that is taken off, and which is defined again after it.
fn is_earlier(line: &Line<'_>, map: &Map, change: &Change) -> bool {
    let named = |word: &str| word == change.name.as_str();
    let is_definition = matches!(line.words(0), [word] if word.text == "shape")
        && matches!(line.words(1), [word] if named(word.text));
    let last = map.get(&change.name).map_or(0, |item| item.place.line);
    is_definition && change.corners.is_empty() && !rows_of(line).contains(&last.saturating_sub(1))
}

/// The rows of a line and of those that continue it, from 0.
fn rows_of(line: &Line<'_>) -> Range<usize> {
    let words = line.fields.iter().flat_map(|field| {
        let words = field.words.iter().map(|word| word.line);
        words.chain([field.line])
    });
    let last = words.max().unwrap_or(line.number);
    line.number.saturating_sub(1)..last
}

/// The rows of a shape, replaced. Comments are kept: the first after the name, others in rows of their own.
fn edit(line: &Line<'_>, rows: &[&[u8]], change: &Change) -> Edit {
    let rows_of_line = rows_of(line);
    let old = rows.get(rows_of_line.clone()).unwrap_or_default();
    let mut by = row_of(old.first().copied().unwrap_or_default(), change);
    for (position, row) in old.iter().enumerate() {
        let row = row.strip_suffix(b"\r").unwrap_or(row);
        let Some(at) = row.iter().position(|&byte| byte == b'#') else {
            continue;
        };
        let comment = row.get(at..).unwrap_or_default();
        match by.first_mut() {
            Some(first) if position == 0 => *first = [first, b"  ".as_slice(), comment].concat(),
            _ => by.push(comment.to_vec()),
        }
    }
    Edit {
        rows: rows_of_line,
        by,
    }
}

/// The rows of a shape; none if it is taken off. What is before its corners is written as in the old row.
fn row_of(
    old: &[u8],
    Change {
        name,
        floor,
        corners,
    }: &Change,
) -> Vec<Vec<u8>> {
    if corners.is_empty() {
        return Vec::new();
    }
    let said = old.split(|&byte| byte == b'#').next().unwrap_or_default();
    let said = String::from_utf8_lossy(said);
    let bars: Vec<usize> = said.match_indices('|').map(|(at, _)| at).collect();
    let begin = match bars.as_slice() {
        [_, second, ..] => said.get(..=*second).unwrap_or_default().to_string(),
        _ => format!("shape | {name} |"),
    };
    let mut rows = Vec::new();
    let mut row = format!("{begin} @{floor}");
    for [x, y] in corners {
        let corner = format!(" {x} {y}");
        if row.chars().count() + corner.len() > WIDE {
            rows.push(row.into_bytes());
            row = String::from("      +");
        }
        row.push_str(&corner);
    }
    rows.push(row.into_bytes());
    rows
}

/// The rows after all edits, with the line ends of the file. The empty row after the last line end has none.
fn joined(rows: &[&[u8]], mut edits: Vec<Edit>, is_dos: bool) -> Vec<u8> {
    edits.sort_by_key(|edit| edit.rows.start);
    let mut all: Vec<Vec<u8>> = Vec::new();
    let mut at = 0;
    for Edit { rows: gone, by } in edits {
        let kept = rows.get(at..gone.start).unwrap_or_default();
        all.extend(kept.iter().map(|row| row.to_vec()));
        for mut row in by {
            row.extend((is_dos && !row.is_empty()).then_some(b'\r'));
            all.push(row);
        }
        at = gone.end;
    }
    all.join(&b'\n')
}
