//! Makes questions from a seed: all rows of the table by turns, most of them short, with a share
//! of long ones.
//!
//!     fields                the fields of each question
//!     shapes, pairs, long   good shapes, alone and in pairs; damage: lists that are refused
//!     points                points of sweeps; rings: rings; floors: those of all lists
//!     apart                 pairs of good shapes that are mostly apart
//!     passages              two obstacles and a cart; drives: an obstacle, a cart and two places
//!     parts                 walks and calls of sums in parts; all of them for small sums
//!     tails                 directions and rooms; readings: bits of doubles; logs: their bytes
//!     around                logs of several shapes on one floor
//!     host                  bytes, floors and rooms of a host's calls
//!     spoil, layout         lines that are no questions; the same text with other spaces
//!
//! Nothing here decides an answer: every line is answered from its text alone.

pub mod apart;
pub mod around;
mod damage;
pub mod dice;
pub mod drives;
pub mod edges;
pub mod fields;
pub mod floors;
pub mod host;
mod layout;
pub mod logs;
pub mod long;
pub mod pairs;
pub mod parts;
mod passages;
pub mod points;
pub mod readings;
pub mod rings;
pub mod shapes;
mod spoil;
mod tails;

use crate::plane::Point;
use crate::questions::{CALLS, Row, TABLE};
use dice::Dice;
use std::io::{self, Write};

/// The numbers of a list, x, y, x, y; all fit 32 bits.
pub type List = Vec<i64>;

/// Writes `count` lines that want an answer, after a byte order mark; others are between them.
/// All are of the words that begin as the given one.
pub fn write_all(seed: u64, count: usize, word: &str, to: impl Write) -> io::Result<()> {
    let wanted = |row: &&Row| row.word.starts_with(word);
    write_rows(seed, count, TABLE.iter().filter(wanted), to)
}

/// The same of a host's calls.
pub fn write_host(seed: u64, count: usize, to: impl Write) -> io::Result<()> {
    write_rows(seed, count, CALLS.iter(), to)
}

fn write_rows<Told: 'static>(
    seed: u64,
    count: usize,
    rows: impl Iterator<Item = &'static Row<Told>> + Clone,
    mut to: impl Write,
) -> io::Result<()> {
    let mut dice = Dice::new(seed);
    write!(to, "\u{FEFF}")?;
    for (number, row) in (0..count).zip(rows.cycle()) {
        writeln!(to, "{}", any_line(&mut dice, row))?;
        if number % 1000 == 0 {
            write!(to, "{}", layout::passed_over(seed, number))?;
        }
    }
    to.flush()
}

/// `word | field | field`
pub fn line(word: &str, fields: &[String]) -> String {
    let mut text = word.to_string();
    for field in fields {
        text.push_str(" | ");
        text.push_str(field);
    }
    text
}

/// The text of a field that holds the corners.
pub fn shape_text(shape: &[Point]) -> String {
    list_text(&numbers(shape))
}

pub fn list_text(list: &[i64]) -> String {
    let written: Vec<String> = list.iter().map(i64::to_string).collect();
    written.join(" ")
}

pub fn numbers(shape: &[Point]) -> List {
    shape.iter().flat_map(|c| [c.x, c.y]).collect()
}

/// One line in thirty is spoilt, and one in thirty has another layout.
fn any_line<Told>(dice: &mut Dice, row: &Row<Told>) -> String {
    let fields = (row.make)(dice);
    let text = if dice.one_in(30) {
        spoil::spoilt(dice, row.word, fields)
    } else {
        line(row.word, &fields)
    };
    if dice.one_in(30) {
        layout::changed(dice, text)
    } else {
        text
    }
}

#[cfg(test)]
mod tests;
