//! Document 01's "Cases to hold against", in its order, as questions with their stated answers, and
//! after them cases of document 02's requests, worked out by hand from its words.
//! S and T stand for their numbers; positions that 01 leaves out with a 4 follow from its words.

use crate::answer::answer;
use crate::make::dice::Dice;
use crate::make::edges::{edges_of, shape_from_edges};
use crate::make::{line, long, shape_text};
use crate::plane::Shape;
use std::io::{self, Write};

mod around;
mod changes;
mod driving;
mod floors;
mod growing;
mod log;
mod measuring;
mod passing;
mod ring;
mod separating;

/// Words of 01 or 02, and the questions with their stated answers.
type Stated = (&'static str, &'static [(&'static str, &'static str)]);

#[rustfmt::skip]
const STARRED: &[Stated] = &[
    ("* S plus T, whole output", &[
        ("sum | S | T", "ok 5 @0 | 0 0 3 0 3 2 2 3 0 3"),
    ]),
    ("* Segment plus segment, one direction and two", &[
        ("sum | 0 0 2 0 | 0 0 1 0", "ok 2 @0 | 0 0 3 0"),
        ("sum | 0 0 2 0 | 0 0 0 1", "ok 4 @0 | 0 0 2 0 2 1 0 1"),
    ]),
    ("* S merged with points", &[
        ("merge | S | 5 1", "ok 5 @0 | 0 0 2 0 5 1 2 2 0 2"),
        ("merge | S | 4 0", "ok 4 @0 | 0 0 4 0 2 2 0 2"),
        ("merge | S | 1 1", "ok 4 @0 | 0 0 2 0 2 2 0 2"),
    ]),
    ("* Points 3 1 and 0 1 merged", &[
        ("merge | 3 1 | 0 1", "ok 2 @0 | 0 1 3 1"),
    ]),
    ("* Length", &[
        ("length | S", "ok 8 0 2 @0"),
        ("length | 0 0 4 0 0 3", "ok 25 1 2 @0"),
    ]),
    ("Area, twice", &[
        ("area | S", "ok 8 @0"),
        ("area | @7 0 0 1 0 0 1", "ok 1 @7"),
        ("area | 5 -5", "ok 0 @0"),
        ("area | 0 0 8 3", "ok 0 @0"),
        ("area | 0 0 0 1 1 0", "no 4 shape 1 edge 0 corner 2"),
        ("area | -1000000 -1000000 1000000 -1000000 1000000 1000000 -1000000 1000000", "ok 8000000000000 @0"),
    ]),
    ("* Width", &[
        ("width | S", "ok 0 2 4 4 2 @0"),
        ("width | 0 0 4 0 0 3", "ok 1 0 12 25 2 @0"),
    ]),
    ("* S against points", &[
        ("relation | S | 3 1", "ok apart @0"),
        ("relation | S | 2 1", "ok touching @0"),
        ("relation | S | 1 1", "ok overlapping @0"),
    ]),
    ("* The star turns left at every corner", &[
        ("judge | 0 0 5 4 -1 4 4 0 2 6", "no 4 shape 1 edge 0 corner 3"),
    ]),
];

#[rustfmt::skip]
const SEGMENTS_AND_RANGE: &[Stated] = &[
    ("Segments against segments, a point against itself", &[
        ("relation | 0 0 2 0 | 1 0 3 0", "ok touching @0"),
        ("relation | 0 0 2 2 | 2 0 0 2", "ok overlapping @0"),
        ("relation | 0 0 1 0 | 2 0 3 0", "ok apart @0"),
        ("relation | 1 1 | 1 1", "ok touching @0"),
    ]),
    ("Coordinate 1,000,000 passes, 1,000,001 and -2,147,483,648 get 3", &[
        ("judge | 1000000 0", "ok 1 @0"),
        ("judge | 0 1000000", "ok 1 @0"),
        ("judge | 1000001 0", "no 3 shape 1"),
        ("judge | 0 1000001", "no 3 shape 1"),
        ("judge | -2147483648 0", "no 3 shape 1"),
        ("judge | 0 -2147483648", "no 3 shape 1"),
    ]),
];

#[rustfmt::skip]
const INSIDE_AND_SUMS: &[Stated] = &[
    ("Inside", &[
        ("inside | T | S", "ok yes @0"),
        ("inside | S | T", "ok no @0"),
        ("inside | S | S", "ok yes @0"),
    ]),
    ("Point plus point, in range and out of it", &[
        ("sum | 500000 0 | 500000 0", "ok 1 @0 | 1000000 0"),
        ("sum | 600000 0 | 500000 0", "no 7"),
    ]),
];

#[rustfmt::skip]
const LEFT_RULE: &[Stated] = &[
    ("Three corners in line: 4. T begun at 1 0: 5. T clockwise: 4", &[
        ("judge | 0 0 1 0 2 0", "no 4 shape 1 edge 0 corner 2"),
        ("judge | 1 0 0 1 0 0", "no 5 shape 1"),
        ("judge | 0 0 0 1 1 0", "no 4 shape 1 edge 0 corner 2"),
    ]),
];

#[rustfmt::skip]
const TANGENTS: &[Stated] = &[
    ("W1: two squares in a row, flush on both lines: the nearest pairs are meant", &[
        ("tangents | S | 5 0 7 0 7 2 5 2", "ok 1 0 2 3 1 3 2 0 @0"),
        ("tangents | 5 0 7 0 7 2 5 2 | S", "ok 3 2 0 1 3 1 0 2 @0"),
    ]),
    ("W1: flush on one line from its two sides, and facing each other", &[
        ("tangents | S | 5 -2 7 -2 7 0 5 0", "ok 0 0 2 2 1 3 2 0 @0"),
        ("tangents | 0 0 2 0 | 0 3 2 3", "ok 1 1 0 0 1 0 0 1 @0"),
    ]),
    ("W1: everything in one line gives the same line four times", &[
        ("tangents | 0 0 | 3 1", "ok 0 0 0 0 0 0 0 0 @0"),
        ("tangents | 0 0 1 0 | 2 0 3 0", "ok 1 0 1 0 1 0 1 0 @0"),
        ("tangents | 2 0 3 0 | 0 0 1 0", "ok 0 1 0 1 0 1 0 1 @0"),
        ("tangents | 0 0 2 2 | 5 5", "ok 1 0 1 0 1 0 1 0 @0"),
    ]),
    ("W1: a point is on either side of each line through it", &[
        ("tangents | 0 0 | 2 -1 2 1", "ok 0 0 0 1 0 1 0 0 @0"),
        ("tangents | S | 3 1", "ok 1 0 2 0 1 0 2 0 @0"),
        ("tangents | S | 4 0", "ok 1 0 2 0 1 0 2 0 @0"),
    ]),
    ("W1: 9 if touching or overlapping, after 1 to 5", &[
        ("tangents | S | 2 0 4 0 4 2 2 2", "no 9"),
        ("tangents | S | 2 2 3 3", "no 9"),
        ("tangents | S | 1 1", "no 9"),
        ("tangents | 1 1 | 1 1", "no 9"),
        ("tangents | 0 0 2 0 | 1 0 3 0", "no 9"),
        ("tangents | S | 1 1 0 0", "no 5 shape 2"),
        ("tangents | 0 0 1 0 2 0 | 0", "no 4 shape 1 edge 0 corner 2"),
    ]),
    ("W4: accepted if finite, whole and in range; minus zero is sent back as plus zero", &[
        ("tablet | mm 0x4008000000000000 | e8 0xc030000000000000", "ok 0x4008000000000000 0xc000000000000000"),
        ("tablet | mm 0x8000000000000000 | e8 0x8000000000000000", "ok 0x0000000000000000 0x0000000000000000"),
        ("tablet | e8 0x415e848000000000 | mm 0xc12e848000000000", "ok 0x412e848000000000 0xc12e848000000000"),
    ]),
    ("W4: 17, then 18, then 3, and x wholly before y", &[
        ("tablet | mm 0x7ff8000000000000 | mm 0x3fe0000000000000", "no 17 part x"),
        ("tablet | mm 0x3ff0000000000000 | e8 0xfff0000000000000", "no 17 part y"),
        ("tablet | mm 0x412e848100000000 | mm 0x7ff8000000000000", "no 18 part x"),
        ("tablet | e8 0x415e848040000000 | mm 0x7ff8000000000000", "no 18 part x"),
        ("tablet | e8 0x415e848200000000 | mm 0x7ff8000000000000", "no 3 part x"),
        ("tablet | mm 0x3ff0000000000000 | mm 0x4340000000000000", "no 3 part y"),
    ]),
    ("W4: the smallest positive double in eighths is 18", &[
        ("tablet | mm 0x3ff0000000000000 | e8 0x0000000000000001", "no 18 part y"),
    ]),
];

#[rustfmt::skip]
const CLEARANCE: &[Stated] = &[
    ("W3: the cart's nose and the six-metre wall", &[
        ("clearance | 0 40 | -3000 0 3000 0", "ok ce 0 0 240000 36000000 40 @0"),
        ("clearance | -3000 0 3000 0 | 0 40", "ok ec 0 0 240000 36000000 40 @0"),
    ]),
    ("W3: parallel edges that overlap in part: the first corner over the other edge", &[
        ("clearance | 0 -2 4 -2 4 0 0 0 | 1 1 6 1 6 3 1 3", "ok ce 2 0 5 25 1 @0"),
        ("clearance | 1 1 6 1 6 3 1 3 | 0 -2 4 -2 4 0 0 0", "ok ce 0 2 4 16 1 @0"),
        ("clearance | 1 0 2 0 | 0 1 3 1", "ok ce 0 0 3 9 1 @0"),
        ("clearance | 0 1 3 1 | 1 0 2 0", "ok ec 0 0 3 9 1 @0"),
    ]),
    ("W3: faces of equal length: two corners go first, by the first shape, then by the second", &[
        ("clearance | 0 0 2 0 | 0 3 2 3", "ok cc 0 0 9 3 @0"),
        ("clearance | S | 3 0 5 0 5 2 3 2", "ok cc 1 0 1 1 @0"),
        ("clearance | 3 0 5 0 5 2 3 2 | S", "ok cc 0 1 1 1 @0"),
        ("clearance | S | 3 1 5 1 5 2 3 2", "ok cc 2 3 1 1 @0"),
    ]),
    ("W3: a foot at an edge's end is a corner; one beyond it does not count", &[
        ("clearance | 2 3 | 0 0 2 0", "ok cc 0 1 9 3 @0"),
        ("clearance | 3 3 | 0 0 2 0", "ok cc 0 1 10 3 @0"),
        ("clearance | S | 5 6", "ok cc 2 0 25 5 @0"),
    ]),
    ("W3: a corner against two edges as near, then the smaller edge", &[
        ("clearance | 1 1 | 0 0 2 0", "ok ce 0 0 2 4 1 @0"),
        ("clearance | S | 3 1", "ok ec 0 1 2 4 1 @0"),
        ("clearance | 2 0 0 2 | 0 0", "ok ec 0 0 4 8 1 @0"),
    ]),
    ("W3: points, and segments in line", &[
        ("clearance | 0 0 | 3 4", "ok cc 0 0 25 5 @0"),
        ("clearance | 0 0 1 0 | 2 0 3 0", "ok cc 1 0 1 1 @0"),
        ("clearance | 2 0 3 0 | 0 0 1 0", "ok cc 0 1 1 1 @0"),
        ("clearance | -1000000 -1000000 | 1000000 1000000", "ok cc 0 0 8000000000000 2828427 @0"),
    ]),
    ("W3: 0 without positions if not apart; 1 to 5 before it", &[
        ("clearance | S | 2 1", "ok 0 @0"),
        ("clearance | S | 1 1", "ok 0 @0"),
        ("clearance | 0 0 2 0 | 1 0 3 0", "ok 0 @0"),
        ("clearance | S | 1 0 0 0", "no 5 shape 2"),
        ("clearance | 0 0 0 | S", "no 1 shape 1"),
    ]),
];

#[rustfmt::skip]
const PARTS: &[Stated] = &[
    ("W6: the parts joined are the sum, wherever it was cut; 8 keeps the walk", &[
        ("parts | S | T | 2:4 2:4 2:4", "ok @0 | 2 0 0 3 0 | 2 3 2 2 3 | 1 0 3"),
        ("parts | S | T | 5:10", "ok @0 | 5 0 0 3 0 3 2 2 3 0 3"),
        ("parts | S | T | 1:2 3:5 3:6 0:0 9:2 9:2", "ok @0 | 1 0 0 | no 8 | 3 3 0 3 2 2 3 | 0 | 1 0 3 | 0"),
        ("parts | S | T |", "ok @0"),
        ("parts | 0 0 2 0 | 0 0 1 0 | 1:2 1:2 1:2", "ok @0 | 1 0 0 | 1 3 0 | 0"),
        ("parts | 3 1 | 0 1 | 2147483647:2 1:0", "ok @0 | 1 3 2 | 0"),
    ]),
    ("W6: beginning is refused as the sum is, but for 8", &[
        ("parts | 1 1 0 0 | T | 1:2", "no 5 shape 1"),
        ("parts | S | 0 0 0 | 1:2", "no 1 shape 2"),
        ("parts | 600000 0 | 500000 0 | 1:2", "no 7"),
        ("parts | S | T | 3:0", "ok @0 | no 8"),
    ]),
    ("W6: the walk is handed back each time", &[
        ("part | S | T | 0 0 0 | 2 4", "ok 2 2 1 0 @0 | 0 0 3 0"),
        ("part | S | T | 2 1 0 | 2 4", "ok 2 3 2 0 @0 | 3 2 2 3"),
        ("part | S | T | 3 2 0 | 2 4", "ok 1 4 3 1 @0 | 0 3"),
        ("part | S | T | 4 3 1 | 2 4", "ok 0 4 3 1 @0 |"),
        ("part | S | T | 2 2 0 | 0 0", "ok 0 2 2 0 @0 |"),
        ("part | S | 0 0 | 4 0 1 | 1 2", "ok 0 4 0 1 @0 |"),
        ("part | 0 0 | 1 1 | 0 0 0 | 1 2", "ok 1 0 0 1 @0 | 1 1"),
        ("part | 0 0 | 1 1 | 0 0 1 | 1 2", "ok 0 0 0 1 @0 |"),
    ]),
    ("W6: 14 at no place: passed too early, past the end, over before it, not over at it", &[
        ("part | S | T | 1 0 0 | 2 4", "no 14"),
        ("part | S | T | 0 1 0 | 2 4", "no 14"),
        ("part | S | T | 2 1 1 | 2 4", "no 14"),
        ("part | S | T | 4 3 0 | 2 4", "no 14"),
        ("part | S | T | 5 3 1 | 2 4", "no 14"),
        ("part | S | T | 4 2147483647 1 | 2 4", "no 14"),
        ("part | S | 0 0 | 0 0 1 | 1 2", "no 14"),
        ("part | 0 0 | 1 1 | 1 0 0 | 1 2", "no 14"),
    ]),
    ("W6: 14 after 1 to 5 and before 7; 8 of this call's corners", &[
        ("part | S | 1 1 0 0 | 1 0 0 | 2 4", "no 5 shape 2"),
        ("part | 600000 0 600001 0 | 500000 0 | 1 1 0 | 1 0", "no 14"),
        ("part | 600000 0 600001 0 | 500000 0 | 1 0 0 | 1 0", "no 7"),
        ("part | S | T | 0 0 0 | 2 3", "no 8"),
        ("part | S | T | 3 2 0 | 9 2", "ok 1 4 3 1 @0 | 0 3"),
    ]),
];

#[rustfmt::skip]
const SWEEPS: &[Stated] = &[
    ("W10: any order, repeats and points in line", &[
        ("sweep | 2 2 1 0 0 2 1 1 2 2 2 0 0 0", "ok 4 @0 | 0 0 2 0 2 2 0 2"),
        ("sweep | 0 0 0 2 2 0 2 2", "ok 4 @0 | 0 0 2 0 2 2 0 2"),
        ("sweep | 5 1 S", "ok 5 @0 | 0 0 2 0 5 1 2 2 0 2"),
    ]),
    ("W10: points that are all equal, and points in one line", &[
        ("sweep | 3 1 3 1 3 1", "ok 1 @0 | 3 1"),
        ("sweep | 2 1 3 1 0 1 3 1", "ok 2 @0 | 0 1 3 1"),
        ("sweep | 2 2 0 0 1 1", "ok 2 @0 | 0 0 2 2"),
        ("sweep | 7 -7", "ok 1 @0 | 7 -7"),
    ]),
    ("W10: refusals 1, 3 and 8", &[
        ("sweep |", "no 1 shape 1"),
        ("sweep | 1 1 1", "no 1 shape 1"),
        ("sweep | 1 1 1000001 0", "no 3 shape 1"),
        ("sweep | 3 1 3 1 0 1 | 3", "no 8"),
        ("sweep | 3 1 3 1 0 1 | 4", "ok 2 @0 | 0 1 3 1"),
    ]),
    ("W12: (0,1) passes and (0,5) does not, nor (2,4), which (1,2) names", &[
        ("furthest | S | 0 1", "ok 2 3 2 @0"),
        ("furthest | S | 0 5", "no 12"),
        ("furthest | S | 2 4", "no 12"),
        ("furthest | S | 1 2", "ok 2 2 6 @0"),
        ("furthest | S | -1 0", "ok 3 0 0 @0"),
        ("furthest | S | -2 0", "no 12"),
        ("furthest | S | 6 -35", "ok 1 1 12 @0"),
        ("furthest | S | -1048576 1572864", "no 12"),
        ("furthest | S | 2000000 1999999", "ok 2 2 7999998 @0"),
        ("furthest | S | -2000000 -2000000", "no 12"),
    ]),
    ("W12: 12 comes after 11, and after 1 to 5", &[
        ("furthest | S | 0 0", "no 11"),
        ("furthest | S | 4000000 2000000", "no 11"),
        ("furthest | S | 0 -2147483648", "no 11"),
        ("furthest | 1 0 0 1 0 0 | 2 4", "no 5 shape 1"),
    ]),
];

pub struct Group {
    pub words: String,
    pub cases: Vec<(String, String)>,
}

/// All cases, in the order of 01 and 02.
pub fn groups() -> Vec<Group> {
    let mut groups = spelled(STARRED);
    groups.extend(spelled(SEGMENTS_AND_RANGE));
    groups.push(corner_limit());
    groups.extend(spelled(INSIDE_AND_SUMS));
    groups.push(long_sums());
    groups.extend(spelled(LEFT_RULE));
    groups.extend(spelled(TANGENTS));
    groups.extend(spelled(CLEARANCE));
    groups.extend(spelled(log::LOG));
    groups.extend(spelled(PARTS));
    groups.extend(spelled(SWEEPS));
    groups.push(point_limit());
    groups.extend(spelled(floors::FLOORS));
    groups.extend(spelled(separating::SEPARATING));
    groups.extend(spelled(growing::GROWING));
    groups.extend(spelled(passing::PASSING));
    groups.extend(spelled(changes::CHANGES));
    groups.extend(spelled(driving::DRIVING));
    groups.extend(spelled(around::AROUND));
    groups.extend(spelled(measuring::MEASURING));
    groups.extend(spelled(ring::RING));
    groups.push(ring_limit());
    groups
}

pub fn write_all(mut to: impl Write) -> io::Result<()> {
    for group in groups() {
        writeln!(to, "# {}", group.words)?;
        for (question, _) in group.cases {
            writeln!(to, "{question}")?;
        }
    }
    to.flush()
}

/// How many cases there are, and a report on each whose answer is not the stated one.
pub fn check() -> (usize, Vec<String>) {
    let cases: Vec<_> = groups().into_iter().flat_map(|group| group.cases).collect();
    let report = |(question, stated): &(String, String)| {
        let found = answer(question.as_bytes());
        let told = format!("{question}\n  stated {stated}\n  found  {found}");
        (found != *stated).then_some(told)
    };
    (cases.len(), cases.iter().filter_map(report).collect())
}

fn spelled(stated: &[Stated]) -> Vec<Group> {
    let numbers_for = |question: &str| {
        let with_s = question.replace(" S", " 0 0 2 0 2 2 0 2");
        with_s.replace(" T", " 0 0 1 0 0 1")
    };
    let group = |&(words, cases): &Stated| Group {
        words: words.to_string(),
        cases: cases
            .iter()
            .map(|&(q, a)| (numbers_for(q), a.to_string()))
            .collect(),
    };
    stated.iter().map(group).collect()
}

fn corner_limit() -> Group {
    let mut dice = Dice::new(1);
    let mut judged = |count| line("judge", &[shape_text(&long::of_corners(&mut dice, count))]);
    Group {
        words: "1,024 corners pass, 1,025 get 2 (W7)".to_string(),
        cases: vec![
            (judged(1024), "ok 1024 @0".to_string()),
            (judged(1025), "no 2 shape 1".to_string()),
        ],
    }
}

fn point_limit() -> Group {
    let swept = |count: usize| line("sweep", &[["3 1"].repeat(count).join(" ")]);
    Group {
        words: "W10: 1,024 points pass, 1,025 get 2 though all are equal".to_string(),
        cases: vec![
            (swept(1024), "ok 1 @0 | 3 1".to_string()),
            (swept(1025), "no 2 shape 1".to_string()),
        ],
    }
}

/// The closing point is not counted.
fn ring_limit() -> Group {
    let mut dice = Dice::new(3);
    let mut ring = |count, closed: bool| {
        let mut shape = long::of_corners(&mut dice, count);
        let whole = shape_text(&shape);
        shape.reverse();
        if closed {
            shape.push(shape[0]);
        }
        let stated = match count {
            1024 => format!("ok 1024 @0 | {whole}"),
            _ => "no 2 shape 1".to_string(),
        };
        (line("ring", &[shape_text(&shape)]), stated)
    };
    Group {
        words: "Ours: a ring of 1,024 points passes, closed too; one of 1,025 gets 2".to_string(),
        cases: vec![ring(1024, false), ring(1024, true), ring(1025, false)],
    }
}

/// The edges of both in order of direction are the edges of their sum.
fn long_sums() -> Group {
    let mut dice = Dice::new(2);
    let mut pair = |count| long::sharing(&mut dice, (count, count), 0);
    let sum = |(a, b): &(Shape, Shape)| line("sum", &[shape_text(a), shape_text(b)]);
    let (short, long) = (pair(300), pair(600));
    let whole = shape_from_edges(&[edges_of(&short.0), edges_of(&short.1)].concat());
    Group {
        words: "Shapes of 300 corners, no shared edge direction: answered; of 600: 6 (W7)"
            .to_string(),
        cases: vec![
            (sum(&short), format!("ok 600 @0 | {}", shape_text(&whole))),
            (sum(&long), "no 6".to_string()),
        ],
    }
}

#[cfg(test)]
mod tests {
    #[test]
    fn every_case_has_its_stated_answer() {
        let (count, reports) = super::check();
        assert!(count >= 50 && reports.is_empty(), "{reports:#?}");
    }
}
