//! One function for each question: from the fields of its line to its answer.
use crate::fault::Fault;
use crate::fields::Kind::{self, Bytes, Calls, Floor, List, Numbers, Optional, Output, Reading};
use crate::fields::{Call, Fields};
use cocklesway::bytes::{self, Packed};
use cocklesway::{Addition, Beyond, Book, Meeting, Nearest, Refusal, Relation, Shape, Walk};

pub struct Row {
    pub word: &'static str,
    pub fields: &'static [Kind],
    pub ask: fn(Fields) -> Answer,
}

type Answer = Result<String, Fault>;

/// A question of one shape that writes, one of two, and a call on bytes.
type OneWritten = for<'o> fn(Shape<'_>, &'o mut [[i32; 2]]) -> Result<Shape<'o>, Refusal>;
type TwoWritten =
    for<'o> fn(Shape<'_>, Shape<'_>, &'o mut [[i32; 2]]) -> Result<Shape<'o>, Refusal>;
type BytesWritten = fn(&[u8], u32, &[u8], u32, &mut [u8]) -> Packed;

#[rustfmt::skip]
pub const TABLE: &[Row] = &[
    Row { word: "judge", fields: &[List], ask: judge },
    Row { word: "furthest", fields: &[List, Numbers], ask: furthest },
    Row { word: "mirror", fields: &[List, Optional], ask: |f| one_written(f, cocklesway::mirror) },
    Row { word: "sum", fields: &[List, List, Optional], ask: |f| two_written(f, cocklesway::sum) },
    Row { word: "parts", fields: &[List, List, Calls], ask: parts },
    Row { word: "part", fields: &[List, List, Numbers, Numbers], ask: part },
    Row { word: "merge", fields: &[List, List, Optional], ask: |f| two_written(f, cocklesway::merge) },
    Row { word: "grow", fields: &[List, List, Optional], ask: |f| two_written(f, cocklesway::grow) },
    Row { word: "sweep", fields: &[List, Optional], ask: |f| one_written(f, cocklesway::sweep) },
    Row { word: "ring", fields: &[List, Optional], ask: |f| one_written(f, cocklesway::ring) },
    Row { word: "length", fields: &[List], ask: length },
    Row { word: "area", fields: &[List], ask: area },
    Row { word: "width", fields: &[List], ask: width },
    Row { word: "box", fields: &[List], ask: least_box },
    Row { word: "relation", fields: &[List, List], ask: relation },
    Row { word: "inside", fields: &[List, List], ask: inside },
    Row { word: "offer", fields: &[List, List, Numbers], ask: offer },
    Row { word: "find", fields: &[List, List], ask: find },
    Row { word: "clearance", fields: &[List, List], ask: clearance },
    Row { word: "greatest", fields: &[List, List], ask: greatest },
    Row { word: "excess", fields: &[List, List], ask: excess },
    Row { word: "tangents", fields: &[List, List], ask: tangents },
    Row { word: "passage", fields: &[List, List, List], ask: passage },
    Row { word: "contact", fields: &[List, List, Numbers, Numbers], ask: contact },
    Row { word: "tablet", fields: &[Reading, Reading], ask: tablet },
    Row { word: "bookread", fields: &[Bytes, Numbers, Optional], ask: book_read },
    Row { word: "bookadd", fields: &[Bytes, Numbers, List, Optional], ask: book_add },
    Row { word: "pack", fields: &[Bytes, Bytes, Numbers, Optional], ask: pack },
    Row { word: "entry", fields: &[Bytes, Numbers, Optional], ask: entry },
    Row { word: "nearest", fields: &[Bytes, List, Optional], ask: nearest },
    Row { word: "gap", fields: &[Bytes, List], ask: gap },
    Row { word: "drive", fields: &[Bytes, List, Numbers, Numbers], ask: drive },
    Row { word: "hjudge", fields: &[Bytes, Floor], ask: judge_bytes },
    Row { word: "hsum", fields: &[Bytes, Floor, Bytes, Floor, Output], ask: |f| bytes_written(f, bytes::sum) },
    Row { word: "hmerge", fields: &[Bytes, Floor, Bytes, Floor, Output], ask: |f| bytes_written(f, bytes::merge) },
    Row { word: "hrelation", fields: &[Bytes, Floor, Bytes, Floor], ask: relation_bytes },
];

fn judge(mut fields: Fields) -> Answer {
    let answer = cocklesway::judge(fields.list().shape())?;
    Ok(format!("ok {} @{}", answer.count, answer.floor))
}

fn furthest(mut fields: Fields) -> Answer {
    let (list, direction) = (fields.list(), fields.direction()?);
    let answer = cocklesway::furthest(list.shape(), direction)?;
    let (first, last, value) = (answer.first, answer.last, answer.value);
    Ok(format!("ok {first} {last} {value} @{}", answer.floor))
}

fn one_written(mut fields: Fields, ask: OneWritten) -> Answer {
    let (list, mut out) = (fields.list(), output(fields.count()?));
    Ok(written(ask(list.shape(), &mut out)?))
}

fn two_written(mut fields: Fields, ask: TwoWritten) -> Answer {
    let (a, b, mut out) = (fields.list(), fields.list(), output(fields.count()?));
    Ok(written(ask(a.shape(), b.shape(), &mut out)?))
}

/// After a bar each, what the calls from the beginning on wrote, or their refusal.
fn parts(mut fields: Fields) -> Answer {
    let (a, b) = (fields.list(), fields.list());
    let (a, b) = (a.shape(), b.shape());
    let mut walk = Walk::begin(a, b)?;
    let mut line = format!("ok @{}", a.floor);
    for Call { k, room } in fields.calls() {
        line += " | ";
        match walk.part(a, b, k, &mut output(Some(room))) {
            Ok(part) => {
                line += &part.corners.len().to_string();
                line += &numbers(part.corners);
                walk = part.walk;
            }
            Err(refusal) => line += &Fault::from(refusal).to_string(),
        }
    }
    Ok(line)
}

fn part(mut fields: Fields) -> Answer {
    let (a, b) = (fields.list(), fields.list());
    let (walk, Call { k, room }) = (fields.walk()?, fields.call()?);
    let mut out = output(Some(room));
    let part = walk.part(a.shape(), b.shape(), k, &mut out)?;
    let (count, corners) = (part.corners.len(), numbers(part.corners));
    let (first, second, over) = (
        part.walk.first(),
        part.walk.second(),
        u8::from(part.walk.is_over()),
    );
    Ok(format!(
        "ok {count} {first} {second} {over} @{} |{corners}",
        part.floor
    ))
}

fn length(mut fields: Fields) -> Answer {
    let answer = cocklesway::length(fields.list().shape())?;
    let (squared, from, to) = (answer.squared, answer.from, answer.to);
    Ok(format!("ok {squared} {from} {to} @{}", answer.floor))
}

fn area(mut fields: Fields) -> Answer {
    let answer = cocklesway::area(fields.list().shape())?;
    Ok(format!("ok {} @{}", answer.twice, answer.floor))
}

fn width(mut fields: Fields) -> Answer {
    let answer = cocklesway::width(fields.list().shape())?;
    let (edge, corner, turn) = (answer.edge, answer.corner, answer.turn);
    let (squared, rounded) = (answer.squared, answer.rounded);
    Ok(format!(
        "ok {edge} {corner} {turn} {squared} {rounded} @{}",
        answer.floor
    ))
}

fn least_box(mut fields: Fields) -> Answer {
    let answer = cocklesway::least_box(fields.list().shape())?;
    let (edge, height, along) = (answer.edge, answer.height, answer.along);
    Ok(format!(
        "ok {edge} {height} {along} {} @{}",
        answer.squared, answer.floor
    ))
}

fn relation(mut fields: Fields) -> Answer {
    let (a, b) = (fields.list(), fields.list());
    let answer = cocklesway::relation(a.shape(), b.shape())?;
    let word = match answer.relation {
        Relation::Apart => "apart",
        Relation::Touching => "touching",
        Relation::Overlapping => "overlapping",
    };
    Ok(format!("ok {word} @{}", answer.floor))
}

fn inside(mut fields: Fields) -> Answer {
    let (a, b) = (fields.list(), fields.list());
    let answer = cocklesway::inside(a.shape(), b.shape())?;
    Ok(format!("ok {} @{}", yes_or_no(answer.within), answer.floor))
}

fn offer(mut fields: Fields) -> Answer {
    let (a, b, direction) = (fields.list(), fields.list(), fields.direction()?);
    let answer = cocklesway::offer(a.shape(), b.shape(), direction)?;
    Ok(format!(
        "ok {} @{}",
        yes_or_no(answer.accepted),
        answer.floor
    ))
}

fn find(mut fields: Fields) -> Answer {
    let (a, b) = (fields.list(), fields.list());
    let answer = cocklesway::find(a.shape(), b.shape())?;
    Ok(match answer.direction {
        Some([u, v]) => format!("ok {u} {v} @{}", answer.floor),
        None => format!("ok none @{}", answer.floor),
    })
}

fn clearance(mut fields: Fields) -> Answer {
    let (a, b) = (fields.list(), fields.list());
    let answer = cocklesway::clearance(a.shape(), b.shape())?;
    Ok(format!("ok {} @{}", place(answer.nearest), answer.floor))
}

fn greatest(mut fields: Fields) -> Answer {
    let (a, b) = (fields.list(), fields.list());
    let answer = cocklesway::greatest(a.shape(), b.shape())?;
    let (squared, first, second) = (answer.squared, answer.first, answer.second);
    Ok(format!("ok {squared} {first} {second} @{}", answer.floor))
}

fn excess(mut fields: Fields) -> Answer {
    let (new, old) = (fields.list(), fields.list());
    let answer = cocklesway::excess(new.shape(), old.shape())?;
    let words = match answer.beyond {
        None => "inside".to_string(),
        Some(Beyond::Corners {
            corner,
            other,
            squared,
            up,
        }) => format!("cc {corner} {other} {squared} {up}"),
        Some(Beyond::Edge {
            corner,
            edge,
            turn,
            squared,
            up,
        }) => format!("ce {corner} {edge} {turn} {squared} {up}"),
    };
    Ok(format!("ok {words} @{}", answer.floor))
}

fn tangents(mut fields: Fields) -> Answer {
    let (a, b) = (fields.list(), fields.list());
    let answer = cocklesway::tangents(a.shape(), b.shape())?;
    let lines = [answer.left, answer.right, answer.crossing, answer.reverse];
    let lines = lines
        .map(|line| format!("{} {}", line.from, line.to))
        .join(" ");
    Ok(format!("ok {lines} @{}", answer.floor))
}

fn passage(mut fields: Fields) -> Answer {
    let (left, right, cart) = (fields.list(), fields.list(), fields.list());
    let answer = cocklesway::passage(left.shape(), right.shape(), cart.shape())?;
    let Some(way) = answer.way else {
        return Ok(format!("ok blocked @{}", answer.floor));
    };
    let ([u, v], low, high) = (way.across, way.low, way.high);
    Ok(format!(
        "ok {u} {v} {low} {high} {} @{}",
        way.width, answer.floor
    ))
}

fn contact(mut fields: Fields) -> Answer {
    let (obstacle, cart) = (fields.list(), fields.list());
    let (from, to) = (fields.place()?, fields.place()?);
    let answer = cocklesway::contact(obstacle.shape(), cart.shape(), from, to)?;
    let Some(meeting) = answer.meeting else {
        return Ok(format!("ok never @{}", answer.floor));
    };
    Ok(format!("ok {} @{}", way(meeting), answer.floor))
}

fn tablet(mut fields: Fields) -> Answer {
    let corner = cocklesway::tablet(fields.reading(), fields.reading())?;
    let [x, y] = corner.map(|number| f64::from(number).to_bits());
    Ok(format!("ok {x:#018x} {y:#018x}"))
}

fn book_read(mut fields: Fields) -> Answer {
    let (log, name, mut out) = (fields.bytes(), fields.name()?, output(fields.count()?));
    Ok(written(cocklesway::log_read(&log, name, &mut out)?))
}

fn book_add(mut fields: Fields) -> Answer {
    let (mut log, name, list) = (fields.bytes(), fields.name()?, fields.list());
    let allowed = fields.count()?.unwrap_or(usize::MAX);
    let mut book = Book::new(&mut log);
    let word = stored(book.add(name, list.shape(), allowed)?);
    Ok(format!("ok {word} | {}", hexadecimal(book.bytes())))
}

fn pack(mut fields: Fields) -> Answer {
    let (old, mut new, but) = (fields.bytes(), fields.bytes(), fields.but()?);
    let allowed = fields.count()?.unwrap_or(usize::MAX);
    let word = stored(cocklesway::log_pack(&old, &mut new, but, allowed)?);
    Ok(format!("ok {word} | {}", hexadecimal(&new)))
}

fn entry(mut fields: Fields) -> Answer {
    let (log, k, mut out) = (fields.bytes(), fields.position()?, output(fields.count()?));
    let (name, shape) = cocklesway::log_entry(&log, k, &mut out)?;
    let (count, floor) = (shape.corners.len(), shape.floor);
    Ok(format!(
        "ok {count} {name} @{floor} |{}",
        numbers(shape.corners)
    ))
}

fn nearest(mut fields: Fields) -> Answer {
    let (log, list, but) = (fields.bytes(), fields.list(), fields.but()?);
    let answer = cocklesway::log_nearest(&log, list.shape(), but)?;
    let (name, place) = (answer.name, place(answer.nearest));
    Ok(format!("ok {name} {place} @{}", answer.floor))
}

fn gap(mut fields: Fields) -> Answer {
    let (log, cart) = (fields.bytes(), fields.list());
    let answer = cocklesway::log_gap(&log, cart.shape())?;
    let ([first, second], place) = (answer.names, place(answer.nearest));
    Ok(format!("ok {first} {second} {place} @{}", answer.floor))
}

fn drive(mut fields: Fields) -> Answer {
    let (log, cart) = (fields.bytes(), fields.list());
    let (from, to) = (fields.place()?, fields.place()?);
    let answer = cocklesway::log_contact(&log, cart.shape(), from, to)?;
    let Some((name, meeting)) = answer.first else {
        return Ok(format!("ok never @{}", answer.floor));
    };
    Ok(format!("ok {name} {} @{}", way(meeting), answer.floor))
}

fn stored(addition: Addition) -> &'static str {
    match addition {
        Addition::Finished => "finished",
        Addition::Cut => "cut",
    }
}

fn judge_bytes(mut fields: Fields) -> Answer {
    let (list, floor) = (fields.bytes(), fields.whole());
    Ok(format!("{:#018x}", bytes::judge(&list, floor).number()))
}

fn relation_bytes(mut fields: Fields) -> Answer {
    let ((a, f), (b, g)) = (
        (fields.bytes(), fields.whole()),
        (fields.bytes(), fields.whole()),
    );
    Ok(format!("{:#018x}", bytes::relation(&a, f, &b, g).number()))
}

fn bytes_written(mut fields: Fields, call: BytesWritten) -> Answer {
    let ((a, f), (b, g)) = (
        (fields.bytes(), fields.whole()),
        (fields.bytes(), fields.whole()),
    );
    let mut out = vec![0; fields.whole() as usize];
    let packed = call(&a, f, &b, g, &mut out);
    let written = packed.corners().map_or(0, |corners| 8 * corners.count);
    let space = if written == 0 { "" } else { " " };
    let bytes = hexadecimal(&out[..written]);
    Ok(format!("{:#018x} |{space}{bytes}", packed.number()))
}

/// An output that holds the given number of numbers, or the longest answer.
fn output(room: Option<usize>) -> Vec<[i32; 2]> {
    let most = cocklesway::limits().corners;
    vec![[0; 2]; room.map_or(most, |room| most.min(room / 2))]
}

fn written(shape: Shape<'_>) -> String {
    let (count, floor) = (shape.corners.len(), shape.floor);
    format!("ok {count} @{floor} |{}", numbers(shape.corners))
}

/// The numbers of corners, with a space before each.
fn numbers(corners: &[[i32; 2]]) -> String {
    let numbers = corners.as_flattened().iter();
    numbers.map(|number| format!(" {number}")).collect()
}

fn hexadecimal(bytes: &[u8]) -> String {
    bytes.iter().map(|byte| format!("{byte:02X}")).collect()
}

/// Where two shapes are nearest, and how near: 0 if they are not apart.
fn place(nearest: Option<Nearest>) -> String {
    let (kind, across) = match nearest {
        None => return "0".to_string(),
        Some(Nearest::Corners {
            first,
            second,
            squared,
            rounded,
        }) => return format!("cc {first} {second} {squared} {rounded}"),
        Some(Nearest::CornerEdge(across)) => ("ce", across),
        Some(Nearest::EdgeCorner(across)) => ("ec", across),
    };
    let (corner, edge, turn) = (across.corner, across.edge, across.turn);
    let (squared, rounded) = (across.squared, across.rounded);
    format!("{kind} {corner} {edge} {turn} {squared} {rounded}")
}

/// The fraction of the way, and the millimetres before it.
fn way(meeting: Meeting) -> String {
    let (numerator, denominator) = (meeting.numerator, meeting.denominator);
    format!("{numerator} {denominator} {}", meeting.safe)
}

fn yes_or_no(yes: bool) -> &'static str {
    if yes { "yes" } else { "no" }
}
