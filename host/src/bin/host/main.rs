//! Answers questions, one a line, from standard input to standard output. All of them are asked of the package
//! `cocklesway`, in the words of the `query` program:
//!
//!     judge | 0 0 2 0 2 2 0 2                       ok 4 @0
//!     relation | @3 0 0 2 0 2 2 0 2 | @3 2 1        ok touching @3
//!     sum | @2 0 0 | @1 0 0                         no 13
//!
//! The four calls on bytes are lines too. Their answer is the call's number, and after a bar what was written:
//!
//!     hjudge | BYTES | FLOOR
//!     hsum | BYTES | FLOOR | BYTES | FLOOR | OUTPUT
//!     hmerge | BYTES | FLOOR | BYTES | FLOOR | OUTPUT
//!     hrelation | BYTES | FLOOR | BYTES | FLOOR
//!
//! BYTES are pairs of hexadecimal digits, with spaces between pairs or without, or none; a FLOOR is a number of 32
//! bits; OUTPUT says how many bytes are lent, at most 65,536. A line that is no question is answered `unreadable:`
//! and why. A byte order mark before all lines, empty lines and lines that begin with # are passed over.
mod ask;
mod fault;
mod fields;
mod words;

use fault::{Fault, Unreadable};
use fields::Fields;
use std::io::{self, BufRead, Write};
use words::{is_space, trimmed};

/// How many characters a line may have. Spaces after the last other character do not count.
const MOST_CHARACTERS: usize = 65_536;

fn main() -> io::Result<()> {
    let mut output = io::BufWriter::new(io::stdout().lock());
    let mut mark: &[u8] = b"\xEF\xBB\xBF";
    for line in io::stdin().lock().split(b'\n') {
        let line = line?;
        let line = line.strip_prefix(mark).unwrap_or(&line);
        mark = b"";
        if line.starts_with(b"#") || line.iter().all(is_space) {
            continue;
        }
        match answer(line) {
            Ok(answer) => writeln!(output, "{answer}")?,
            Err(fault) => writeln!(output, "{fault}")?,
        }
    }
    output.flush()
}

fn answer(line: &[u8]) -> Result<String, Fault> {
    let mut rest = line.iter().skip(MOST_CHARACTERS);
    if rest.any(|byte| !is_space(byte)) {
        return Err(Unreadable::LineTooLong.into());
    }
    let mut texts = line.split(|&byte| byte == b'|');
    let word = trimmed(texts.next().unwrap_or_default());
    let named = |row: &&ask::Row| row.word.as_bytes() == word;
    let row = ask::TABLE
        .iter()
        .find(named)
        .ok_or(Unreadable::UnknownWord)?;
    let texts: Vec<&[u8]> = texts.collect();
    (row.ask)(Fields::read(row.fields, &texts)?)
}
