//! Spaces, tabs and carriage returns where they change nothing, and lines that want no answer.

use super::dice::Dice;
use crate::text::lines::MOST_CHARACTERS;

/// The same line with other spaces.
pub fn changed(dice: &mut Dice, line: String) -> String {
    match dice.below(7) {
        0 => line.replace(' ', "  "),
        1 => line.replace(' ', "\t"),
        2 => line.replace(" | ", "|"),
        3 => line.replace(" | ", "\r|\t"),
        4 => format!(" \t{line}"),
        5 => line + "\r",
        _ => line + " \t\r ",
    }
}

/// An empty line, one of spaces and a comment; before all others also a comment and spaces that
/// are longer than a line may be.
pub fn passed_over(seed: u64, number: usize) -> String {
    let mut lines = format!("\n \t \r\n# seed {seed}, questions from {number}\n");
    if number == 0 {
        let much = MOST_CHARACTERS + 1;
        lines += &format!("#{}\n{}\n", "-".repeat(much), " ".repeat(much));
    }
    lines
}
