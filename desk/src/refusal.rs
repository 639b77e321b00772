//! Refusals in plain words: which shape, which corner, and what to do about it.
use crate::answer::{Refused, shape_of};
use crate::given::{Corner, Given, Pair, Trio};
use crate::question::{Call, Making, OfOne, OfTwo, Question, Record};
use crate::whole_floor;
use cocklesway::{Axis, Reading, Refusal, Which, judge, limits};
use std::fmt::Write;

/// Returns why a question was refused.
#[must_use]
pub fn reason(refused: &Refused) -> String {
    let Refused { question, refusal } = refused;
    match *refusal {
        Refusal::Count { .. }
        | Refusal::Corners { .. }
        | Refusal::Range { .. }
        | Refusal::Side { .. }
        | Refusal::NotConvex { .. }
        | Refusal::Start { .. } => of_list(question, *refusal),
        Refusal::LargeAnswer | Refusal::FarAnswer | Refusal::Room => of_answer(question, *refusal),
        Refusal::Direction | Refusal::NotPrimitive => of_direction(question, *refusal),
        Refusal::NotFinite { axis } | Refusal::NotWhole { axis } | Refusal::FarReading { axis } => {
            of_reading(question, *refusal, axis)
        }
        other => of_question(question, other),
    }
}

/// Returns why a call of a sum in parts was refused.
#[must_use]
pub fn of_call(refusal: Refusal, call: Call) -> String {
    match refusal {
        Refusal::Room => format!(
            "its corners need more than the {} numbers of its room",
            call.room
        ),
        other => other.to_string(),
    }
}

/// Returns bytes as pairs of hexadecimal digits.
#[must_use]
pub fn hexadecimal(bytes: &[u8]) -> String {
    let mut text = String::with_capacity(2 * bytes.len());
    for byte in bytes {
        // Writing to a string cannot fail.
        let _ = write!(text, "{byte:02X}");
    }
    text
}

/// The refusals that blame a list.
fn of_list(question: &Question, refusal: Refusal) -> String {
    let shapes = question.shapes();
    match (question, refusal.shape()) {
        (Question::Contact(drive), Some(Which::Third | Which::Fourth)) => {
            return far_place([drive.from, drive.to]);
        }
        (Question::Drive(past), Some(Which::Second | Which::Third)) => {
            return far_place([past.from, past.to]);
        }
        _ => {}
    }
    let blamed = match refusal.shape() {
        Some(Which::Second) => shapes.get(1),
        Some(Which::Third) => shapes.get(2),
        _ => shapes.first(),
    };
    let Some(&shape) = blamed else {
        return refusal.to_string();
    };
    let noun = match question {
        Question::Make(Making::Sweep(_) | Making::Ring(_), _) => "point",
        _ => "corner",
    };
    match refusal {
        Refusal::Count { .. } => count(shape, noun),
        Refusal::Corners { .. } => many(shape, counted(question, shape), noun),
        Refusal::Range { .. } => far(shape, noun),
        Refusal::Side { edge, corner, .. } => side(shape, edge, corner),
        Refusal::NotConvex { before, corner } => not_convex(shape, before, corner),
        _ => start(shape),
    }
}

fn count(shape: &Given, noun: &str) -> String {
    match shape.numbers.len() {
        0 => format!("{shape} has no {noun}; at least one is needed"),
        1 => format!("{shape} has 1 number; each {noun} needs two, x and y"),
        odd => format!("{shape} has {odd} numbers; each {noun} needs two, x and y"),
    }
}

/// How many corners or points of a list count: all but the closing one of a ring.
fn counted(question: &Question, shape: &Given) -> usize {
    match (question, shape.corners()) {
        (Question::Make(Making::Ring(_), _), [first, open @ .., last]) if first == last => {
            open.len() + 1
        }
        (_, all) => all.len(),
    }
}

fn many(shape: &Given, count: usize, noun: &str) -> String {
    let most = limits().corners;
    format!("{shape} has {count} {noun}s; at most {most} are allowed")
}

fn far(shape: &Given, noun: &str) -> String {
    let corner = Corner(
        shape
            .corners()
            .iter()
            .find(|corner| is_far(**corner))
            .copied()
            .unwrap_or_default(),
    );
    out_of_range(&format!("the {noun} {corner} of {shape}"))
}

/// The place of departure, or the destination if only that is out of range.
fn far_place([from, to]: [[i32; 2]; 2]) -> String {
    let place = if is_far(from) { from } else { to };
    out_of_range(&format!("the place {}", Corner(place)))
}

/// Whether a coordinate is out of range.
fn is_far(corner: [i32; 2]) -> bool {
    corner
        .iter()
        .any(|part| part.unsigned_abs() > limits().coordinate)
}

fn out_of_range(what: &str) -> String {
    let most = limits().coordinate;
    format!("{what} is out of range: coordinates go from -{most} to {most} mm")
}

fn side(shape: &Given, edge: usize, corner: usize) -> String {
    let (at, ends) = (shape.corner(corner), shape.edge(edge));
    if shape.corners().len() == 2 {
        return format!("both ends of {shape} are {at}; a point is written once");
    }
    let where_it_is = if is_right(ends.0, ends.1, at) {
        "to the right"
    } else {
        "on the line"
    };
    let hint = hint(shape.corners());
    format!(
        "the corner {at} of {shape} is {where_it_is} of the edge {ends}; all others must be to its left{hint}"
    )
}

/// A ring that does not go once round a shape.
fn not_convex(shape: &Given, before: usize, corner: usize) -> String {
    let [before, at] = [before, corner].map(|position| shape.corner(position));
    format!(
        "{shape} is no convex ring: after {before} it turns in or back at {at}, or begins to go round again there"
    )
}

/// Whether a corner is strictly to the right of an edge. Coordinates are in range, so the products are in 64 bits.
fn is_right(Corner(a): Corner, Corner(b): Corner, Corner(c): Corner) -> bool {
    let [[ax, ay], [bx, by], [cx, cy]] = [a, b, c].map(|corner| corner.map(i64::from));
    (bx - ax) * (cy - ay) < (by - ay) * (cx - ax)
}

/// What may have been meant. Whether another list is a shape, or this one a ring, is asked of the library.
fn hint(corners: &[[i32; 2]]) -> &'static str {
    if let [first, .., last] = corners
        && first == last
    {
        return "; the last corner repeats the first, leave it out";
    }
    let mut reversed: Vec<[i32; 2]> = corners.iter().rev().copied().collect();
    rotate_to_lowest(&mut reversed);
    if judge(cocklesway::Shape::new(&reversed, 0)).is_ok() {
        return "; the corners are in clockwise order, write them counterclockwise";
    }
    let mut out = vec![[0; 2]; limits().corners];
    if cocklesway::ring(cocklesway::Shape::new(corners, 0), &mut out).is_ok() {
        return "; the question `ring` makes a shape of such a list";
    }
    ""
}

fn rotate_to_lowest(corners: &mut [[i32; 2]]) {
    let lowest = (0..).zip(corners.iter()).min_by_key(|&(_, [x, y])| (y, x));
    let at = lowest.map_or(0, |(at, _)| at);
    corners.rotate_left(at);
}

fn start(shape: &Given) -> String {
    let lowest = shape.corners().iter().min_by_key(|[x, y]| (*y, *x));
    let lowest = Corner(lowest.copied().unwrap_or_default());
    let first = shape.corner(0);
    format!(
        "{shape} begins at {first}; it must begin at {lowest}, its lowest corner, the leftmost of several"
    )
}

/// The refusals of the answer's size.
fn of_answer(question: &Question, refusal: Refusal) -> String {
    match question {
        Question::Passage(trio) => return of_grown(&trio.grown(), refusal),
        Question::Contact(drive) => return of_grown(std::slice::from_ref(&drive.pair), refusal),
        Question::Gap(asked) => return of_records(&asked.log, &asked.cart, refusal),
        Question::Drive(past) => return of_records(&past.log, &past.cart, refusal),
        _ => {}
    }
    match refusal {
        Refusal::LargeAnswer => large("the answer"),
        Refusal::FarAnswer => far_answer("the answer", reach(question)),
        _ => room(question),
    }
}

/// The obstacle that is too large or too far when it is grown. The library judges the left one first.
fn of_grown(pairs: &[Pair], refusal: Refusal) -> String {
    let refused = |pair: &&Pair| shape_of(&Making::Grow((*pair).clone()), None) == Err(refusal);
    match pairs.iter().find(refused) {
        Some(pair) => grown(&pair.a.to_string(), pair, refusal),
        None => refusal.to_string(),
    }
}

/// The record that is too large or too far when it is grown.
fn of_records(log: &[u8], cart: &Given, refusal: Refusal) -> String {
    match whole_floor::refused_when_grown(log, cart, refusal) {
        Some((name, pair)) => grown(&format!("record {name}"), &pair, refusal),
        None => refusal.to_string(),
    }
}

/// What is wrong with an obstacle, called so, that is grown by a cart.
fn grown(label: &str, pair: &Pair, refusal: Refusal) -> String {
    let grown = format!("{label} grown by {}", pair.b);
    match refusal {
        Refusal::LargeAnswer => large(&grown),
        _ => far_answer(&grown, reach_of(pair, -1)),
    }
}

fn large(what: &str) -> String {
    format!("{what} would have more than {} corners", limits().corners)
}

/// How far something would reach.
fn far_answer(what: &str, reached: Option<(Axis, i64)>) -> String {
    let most = limits().coordinate;
    let reached = match reached {
        Some((axis, value)) => format!("{what} would reach {axis} = {value}"),
        None => format!("a corner of {what} would be out of range"),
    };
    format!("{reached}; coordinates go from -{most} to {most} mm")
}

/// The axis and the coordinate of the answer that is out of range, the first of least x, greatest x, least y and
/// greatest y.
fn reach(question: &Question) -> Option<(Axis, i64)> {
    match question {
        Question::Make(Making::Sum(pair) | Making::At(pair), _)
        | Question::Two(pair, OfTwo::Parts(_) | OfTwo::Part(..)) => reach_of(pair, 1),
        Question::Make(Making::Grow(pair), _) => reach_of(pair, -1),
        _ => None,
    }
}

/// The same of the sum of two shapes; for -1 of the first and the mirror image of the second.
fn reach_of(pair: &Pair, sign: i64) -> Option<(Axis, i64)> {
    let ends = [(Axis::X, -1), (Axis::X, 1), (Axis::Y, -1), (Axis::Y, 1)];
    let reached = ends.map(|(axis, way)| {
        (
            axis,
            way * (end(&pair.a, axis, way) + end(&pair.b, axis, way * sign)),
        )
    });
    let most = i64::from(limits().coordinate);
    reached.into_iter().find(|(_, value)| value.abs() > most)
}

/// The greatest coordinate of a shape, or for -1 that of its mirror image.
fn end(shape: &Given, axis: Axis, sign: i64) -> i64 {
    let part = |[x, y]: &[i32; 2]| match axis {
        Axis::X => sign * i64::from(*x),
        Axis::Y => sign * i64::from(*y),
    };
    shape.corners().iter().map(part).max().unwrap_or(0)
}

/// How much room the answer would need.
fn room(question: &Question) -> String {
    match question {
        Question::Make(making, Some(room)) => {
            let need = shape_of(making, None).map_or(0, |shape| shape.numbers.len());
            format!("the answer has {need} numbers, and there is room for {room}")
        }
        Question::Two(_, OfTwo::Part(_, call)) => of_call(Refusal::Room, *call),
        _ => Refusal::Room.to_string(),
    }
}

fn of_direction(question: &Question, refusal: Refusal) -> String {
    let (Question::One(_, OfOne::Furthest([u, v])) | Question::Two(_, OfTwo::Offer([u, v]))) =
        question
    else {
        return refusal.to_string();
    };
    let most = limits().part;
    match (refusal, divisor(u.unsigned_abs(), v.unsigned_abs())) {
        (Refusal::Direction, 0) => "(0, 0) is no direction".to_string(),
        (Refusal::Direction, _) => {
            format!("the direction ({u}, {v}) is out of range: its parts go from -{most} to {most}")
        }
        (_, common) => {
            let least = Corner([u, v].map(|part| reduced(*part, common)));
            format!("the direction ({u}, {v}) is not in lowest terms: write {least}")
        }
    }
}

/// Returns the greatest common divisor, by Euclid's remainders.
#[must_use]
pub fn divisor(a: u32, b: u32) -> u32 {
    if b == 0 { a } else { divisor(b, a % b) }
}

/// A part of a direction divided by what both parts have in common.
fn reduced(part: i32, common: u32) -> i32 {
    let common = i64::from(common.max(1));
    (i64::from(part) / common).try_into().unwrap_or(part)
}

fn of_reading(question: &Question, refusal: Refusal, axis: Axis) -> String {
    let Question::Tablet([x, y]) = question else {
        return refusal.to_string();
    };
    let reading = if axis == Axis::X { x } else { y };
    let (value, unit) = match reading {
        Reading::Millimetres(value) => (value, "mm"),
        Reading::Eighths(value) => (value, "eighths of a mm"),
    };
    let most = limits().coordinate;
    match refusal {
        Refusal::NotFinite { .. } => format!("the reading of {axis} is no finite number: {value}"),
        Refusal::NotWhole { .. } => {
            format!("the reading of {axis} is no whole number of millimetres: {value:e} {unit}")
        }
        _ => {
            format!("the reading of {axis} is out of range, -{most} to {most} mm: {value:e} {unit}")
        }
    }
}

/// The refusals of a question itself.
fn of_question(question: &Question, refusal: Refusal) -> String {
    let shapes = question.shapes();
    match (refusal, shapes.as_slice(), question) {
        (Refusal::NotApart, [a, b], _) => {
            format!(
                "{a} and {b} are not apart, and only shapes that are have lines that just touch both"
            )
        }
        (Refusal::Flat, [shape, ..], Question::One(_, OfOne::Box)) => flat(shape, "box"),
        (Refusal::Flat, [shape, ..], _) => flat(shape, "width"),
        (Refusal::Floors, [a, b], _) => floors(a, b, 0),
        (Refusal::Floors, _, Question::Passage(trio)) => floors_of_three(trio),
        (Refusal::NotAPlace, [a, b], Question::Two(_, OfTwo::Part(walk, _))) => {
            let (first, second, over) = (walk.first(), walk.second(), u8::from(walk.is_over()));
            format!("the walk {first} {second} {over} is at no place of the sum of {a} and {b}")
        }
        (Refusal::Damaged { place }, ..) => {
            format!("the record at byte {place} of the log is damaged")
        }
        (Refusal::Full, _, Question::Add(record)) => full(record),
        (Refusal::Full, _, Question::Pack(packing)) => {
            format!("the packed log is longer than {} bytes", packing.new.len())
        }
        (Refusal::NoRecord, _, Question::Make(Making::Read { name, .. }, _)) => {
            format!("no record of the log has the name {name}")
        }
        (Refusal::TooFew, ..) => {
            whole_floor::too_few(question).unwrap_or_else(|| refusal.to_string())
        }
        _ => refusal.to_string(),
    }
}

fn flat(shape: &Given, lacks: &str) -> String {
    let what = if shape.corners().len() == 1 {
        "point"
    } else {
        "segment"
    };
    format!("{shape} is a {what} and has no {lacks}")
}

/// The left obstacle, and the first of the others that is on another floor. An outline takes that of the question.
fn floors_of_three(trio: &Trio) -> String {
    let floor = trio.floor().unwrap_or_default();
    let of = |shape: &Given| shape.floor.unwrap_or(floor);
    let Trio { left, right, cart } = trio;
    let other = if of(left) == of(right) { cart } else { right };
    floors(left, other, floor)
}

/// Two shapes and their floors; an outline is on the given one.
fn floors(a: &Given, b: &Given, floor: u16) -> String {
    let said = |shape: &Given| shape.floor.unwrap_or(floor);
    format!(
        "{a} is on floor {} and {b} is on floor {}",
        said(a),
        said(b)
    )
}

fn full(record: &Record) -> String {
    let Record { log, shape, .. } = record;
    let bytes = log.len();
    format!("the log of {bytes} bytes has too little room after its last record for {shape}")
}
