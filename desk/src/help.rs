//! The pages of the help.
use crate::command::{COMMANDS, Command};
use crate::table::{Row, TABLE};

/// How a map is written.
const MAP: &str = "\
A map is a text file, one thing a line:

    shape | linen-store | @2 3000 1000 4200 1000 4200 1800 3000 1800
    outline | cart | 0 0 600 0 600 900 0 900
    ring | bed | @2 6000 4100 8000 4100 8000 3200 6000 3200 6000 4100
    grown = grow | linen-store | cart

shape     a name, then the corners: the floor after @, and x y of each corner in whole millimetres,
          counterclockwise, none in line with its neighbours, beginning at the lowest corner, and at the
          leftmost of several. One corner is a point, two are a segment. Without @ the floor is 0.
outline   a shape without a floor, such as a cart around its origin 0 0. It takes the floor of the
          question.
ring      a name, then points as a drawing has them: closed or open, either way round, from any corner,
          with points in line or repeated. It must be convex: one that is not is refused (4) with the
          corner that turns in, and is never filled up.
unit      mm, cm or m: the unit of all lengths after it in this file, mm without it. Lengths may have
          decimals. They are read exactly; one that is no whole number of millimetres is refused (18).
NAME =    keeps the shape that a question answers: grow, at, merge, sweep, ring, sum, mirror, bookread,
          entry.
shapes    lists all names.

Fields are separated by |, numbers by blanks. # begins a comment, anywhere on a line. A line that
begins with + continues the one before it. Names have letters and digits of any script, - and _.
A name may be defined again in the same file: from there on it is the new shape. A definition that is
refused, or that cannot be read, removes the name.
";

/// The objects of `--json`.
const JSON: &str = "\
With --json each answer is one object on a line of its own. All numbers are whole.

    file, line    where the question is
    name          the name that the line defines
    question      its word; `shapes` lists what it asks about
    sentence      what is said without --json

A shape is {name, floor, corners}: null for no name or no floor, and corners as [x, y]. A list with an
odd count of numbers has `numbers` instead. Corners are coordinates, edges are both of their ends.

    judge         count                             relation    relation
    length        squared, from, to                 inside      inside
    width         corner, edge, turn, squared,      offer       direction, accepted
                  rounded                           find        direction, or null
    furthest      direction, first, last, value     tangents    left, right, crossing, reverse
    area          twice, in mm²                     greatest    squared, first, second
    box           edge, height, along, squared
    clearance     apart, rounded; first, second, squared or turn and squared
    excess        inside, up; first, second, squared or turn and squared
    passage       passable; direction, low, high, rounded
    contact       from, to, meets; numerator, denominator, safe
    grow, at, merge, sweep, ring, sum, mirror, bookread     made
    parts         calls: corners or refused         part        corners, walk
    tablet        corner                            bookadd     finished, log
    pack          but, or null; finished, log       entry       made, record
    nearest       but, or null; record; then as clearance, of the shape and that of the record
    gap           records; then as clearance, of both shapes after they are grown
    drive         as contact; record, if it meets one

`turn` is t and `squared` is q of a distance t/√q; `squared` alone is the square of the distance. The sides
of a box are `height`/√q across its edge and `along`/√q along it.

    refused       number, reason; shape (0 to 3), edge and corner by their positions, place, axis;
                  of a ring before and corner by their positions
    not_asked     name and at: a shape of the question was refused there
    replaces      where the earlier shape of the name is

Commands on whole floors have one object an answer, with `floor`, names of shapes and the sentence:

    gaps          cart, names; then as clearance, of both obstacles or of what they are when grown
    passes        as passage
    stands        cart, state, overlaps, touches, nearest; then as clearance
    drive         leg, from, to, meets, name; as contact, or as clearance of all that is passed over
    nearest       shape, name; then as clearance
    check         remark: overlapping, equal or case; names
    diff          change, name, old, new; up and back if it changed. With --answers: file, line,
                  question, stays, was and least, or gone

Lines that cannot be read are errors on standard error.
";

/// The numbers of refusals.
const REFUSALS: &str = "\
A refusal has a number, the same everywhere in Cocklesway:

     1  the list is empty or holds an odd count of numbers
     2  it has more than 1,024 corners; the closing point of a ring is not counted
     3  a coordinate is outside -1,000,000 to 1,000,000
     4  two equal corners in a list of two, or a corner that is not strictly left of an edge; or a ring
        that is not convex
     5  the first corner is not the lowest, and the leftmost of the lowest
     6  the answer has more than 1,024 corners
     7  a corner of the answer is out of range
     8  the room that was given holds fewer numbers than the answer
     9  the shapes are not apart, and the lines that just touch both are asked for
    10  the width or the least box of a point or a segment is asked for
    11  the direction is 0 0, or a part of it is outside -2,000,000 to 2,000,000
    12  the two parts of the direction have a common divisor above 1
    13  the two shapes are on different floors
    14  a walk is at no place of the sum of these two shapes
    15  a whole record of a log is of an unknown kind or a wrong length, or its corners are no shape
    16  the room after the last whole record is too short
    17  a reading is not finite
    18  its exact value in millimetres is not whole
    19  no record holds the name
    20  fewer shapes are on the floor, or in the log, than the question compares
";

/// Returns the page that `--help` shows.
#[must_use]
pub fn overview() -> String {
    let mut page = String::from(
        "\
cocklesway answers questions about convex shapes on the floors of a building, in whole millimetres.
Every answer comes from a library in which every function is proved.

Usage: cocklesway COMMAND [OPTIONS] FILE..      (- is standard input)

",
    );
    for command in COMMANDS {
        page.push_str(&format!("    {:<10}{}\n", command.name, command.does));
    }
    page.push_str(
        "    help      the page of a command, or of `map`, `questions`, `refusals` or `json`

    -h, --help       this page
    -V, --version    the version

The status is 0 if all was answered, 1 if something was refused, and 2 for wrong use or a file or a
line that cannot be read. Answers go to standard output, errors to standard error.
",
    );
    page
}

/// Returns the line that `--version` shows.
#[must_use]
pub fn version() -> String {
    let calls = cocklesway::version();
    format!(
        "cocklesway {} (library calls {calls})\n",
        env!("CARGO_PKG_VERSION")
    )
}

/// Returns the page of a command.
#[must_use]
pub fn of_command(command: &Command) -> String {
    let mut page = format!(
        "Usage: cocklesway {} [OPTIONS] {}\n\n{}.\n\n",
        command.name,
        command.takes,
        capital(command.does)
    );
    for option in command.options {
        let called = match option.value {
            Some(value) => format!("{} {value}", option.name),
            None => option.name.to_string(),
        };
        page.push_str(&format!("    {called:<16} {}\n", option.does));
    }
    page.push_str("    -h, --help       this page\n\n");
    page.push_str(command.page);
    page
}

fn capital(text: &str) -> String {
    let mut letters = text.chars();
    letters.next().map_or(String::new(), |first| {
        first.to_uppercase().chain(letters).collect()
    })
}

/// Returns the page of a subject that is no command.
#[must_use]
pub fn subject(name: &str) -> Option<String> {
    match name {
        "map" => Some(MAP.to_string()),
        "questions" => Some(questions()),
        "refusals" => Some(REFUSALS.to_string()),
        "json" => Some(JSON.to_string()),
        _ => None,
    }
}

/// The page of all questions.
fn questions() -> String {
    let mut page = String::from(
        "\
A question is one line of a file: its word, and its fields after bars. A shape is a name, or corners as
in a map. `NAME = ` before a question keeps the shape that it answers.

",
    );
    for Row {
        word,
        parts,
        asks,
        example,
        ..
    } in TABLE
    {
        let fields: Vec<String> = parts
            .iter()
            .map(|part| {
                if part.optional {
                    format!("[| {}]", part.holds)
                } else {
                    format!("| {}", part.holds)
                }
            })
            .collect();
        page.push_str(&format!(
            "{word} {}\n    {asks}\n    {example}\n\n",
            fields.join(" ")
        ));
    }
    page.push_str("In answers, corners and edges are given by their coordinates.\n");
    page
}
