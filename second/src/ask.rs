//! One function for each question: from what its line gave to the words after `ok`, or a refusal.
//! The shapes are judged first, in order, then their floors; then the question itself may refuse,
//! then the room. A floor is the last of an answer's values.

use crate::around;
use crate::clearance::{self, Against, Between, Clearance};
use crate::combine::{self, held_by};
use crate::contact::{self, Contact};
use crate::direction;
use crate::excess::{self, Place};
use crate::host;
use crate::log;
use crate::measure;
use crate::pack;
use crate::parts::{self, State};
use crate::passage;
use crate::plane::{Point, Shape};
use crate::refusal::Refusal;
use crate::ring;
use crate::separation::{self, Relation};
use crate::sweep;
use crate::tablet;
use crate::tangents;
use crate::text::given::Given;

pub type Answer = Result<String, Refusal>;

pub fn judge(given: &Given) -> Answer {
    let ([a], floor) = given.shapes()?;
    Ok(format!("{} @{floor}", a.len()))
}

pub fn furthest(given: &Given) -> Answer {
    let ([a], floor) = given.shapes()?;
    let (first, last, value) = measure::furthest(&a, given.direction())?;
    Ok(format!("{first} {last} {value} @{floor}"))
}

pub fn mirror(given: &Given) -> Answer {
    let ([a], floor) = given.shapes()?;
    written(given, combine::mirror(&a), floor)
}

pub fn sum(given: &Given) -> Answer {
    let ([a, b], floor) = given.shapes()?;
    written(given, combine::sum(&a, &b)?, floor)
}

/// After a bar each, what the calls from the beginning on wrote, or 8.
pub fn parts(given: &Given) -> Answer {
    let ([a, b], floor) = given.shapes()?;
    let sum = combine::sum(&a, &b)?;
    let mut written = 0;
    let mut told = vec![format!("@{floor}")];
    for &call in given.calls() {
        match parts::part(&sum, written, call) {
            Ok((corners, end)) => {
                told.push(format!("| {}{}", corners.len(), behind_spaces(&corners)));
                written = end;
            }
            Err(refusal) => told.push(format!("| {refusal}")),
        }
    }
    Ok(told.join(" "))
}

pub fn part(given: &Given) -> Answer {
    let ([a, b], floor) = given.shapes()?;
    let (corners, State { i, j, over }) = parts::from(&a, &b, given.walk(), given.calls()[0])?;
    let (count, numbers) = (corners.len(), behind_spaces(&corners));
    let over = usize::from(over);
    Ok(format!("{count} {i} {j} {over} @{floor} |{numbers}"))
}

pub fn merge(given: &Given) -> Answer {
    let ([a, b], floor) = given.shapes()?;
    written(given, combine::merge(&a, &b)?, floor)
}

/// The obstacle, then the cart's outline.
pub fn grow(given: &Given) -> Answer {
    let ([obstacle, cart], floor) = given.shapes()?;
    written(given, combine::grow(&obstacle, &cart)?, floor)
}

pub fn sweep(given: &Given) -> Answer {
    let (list, floor) = given.list();
    written(given, sweep::shape(sweep::judged(list)?), floor)
}

pub fn ring(given: &Given) -> Answer {
    let (list, floor) = given.list();
    written(given, ring::shape(&ring::judged(list)?)?, floor)
}

pub fn length(given: &Given) -> Answer {
    let ([a], floor) = given.shapes()?;
    let (squared, i, j) = measure::length(&a);
    Ok(format!("{squared} {i} {j} @{floor}"))
}

pub fn area(given: &Given) -> Answer {
    let ([a], floor) = given.shapes()?;
    Ok(format!("{} @{floor}", measure::twice_area(&a)))
}

pub fn width(given: &Given) -> Answer {
    let ([a], floor) = given.shapes()?;
    let found = measure::width(&a)?;
    Ok(format!(
        "{} {} {} {} {} @{floor}",
        found.edge, found.corner, found.t, found.q, found.w
    ))
}

pub fn least_box(given: &Given) -> Answer {
    let ([a], floor) = given.shapes()?;
    let found = measure::least_box(&a)?;
    let (edge, t, s, q) = (found.edge, found.t, found.s, found.q);
    Ok(format!("{edge} {t} {s} {q} @{floor}"))
}

pub fn relation(given: &Given) -> Answer {
    let ([a, b], floor) = given.shapes()?;
    let word = match separation::relation(&a, &b) {
        Relation::Apart => "apart",
        Relation::Touching => "touching",
        Relation::Overlapping => "overlapping",
    };
    Ok(format!("{word} @{floor}"))
}

pub fn inside(given: &Given) -> Answer {
    let ([a, b], floor) = given.shapes()?;
    let word = if separation::inside(&a, &b) {
        "yes"
    } else {
        "no"
    };
    Ok(format!("{word} @{floor}"))
}

pub fn offer(given: &Given) -> Answer {
    let ([a, b], floor) = given.shapes()?;
    let offered = given.direction();
    direction::judge(offered)?;
    let word = if direction::below(&a, &b, offered) {
        "yes"
    } else {
        "no"
    };
    Ok(format!("{word} @{floor}"))
}

/// Any direction that is accepted would do; `compare` takes whatever other one is.
pub fn find(given: &Given) -> Answer {
    let ([a, b], floor) = given.shapes()?;
    Ok(match direction::found(&a, &b) {
        Some(d) => format!("{} {} @{floor}", d.x, d.y),
        None => format!("none @{floor}"),
    })
}

pub fn clearance(given: &Given) -> Answer {
    let ([a, b], floor) = given.shapes()?;
    let found = clearance::clearance(&a, &b);
    Ok(format!("{} @{floor}", clearance_words(found)))
}

/// Where the clearance falls and how wide it is, or 0.
fn clearance_words(found: Clearance) -> String {
    let Some((found, w)) = found else {
        return "0".to_string();
    };
    let against =
        |found: Against| format!("{} {} {} {}", found.corner, found.edge, found.t, found.q);
    let words = match found {
        Between::Corners { i, j, d } => format!("cc {i} {j} {d}"),
        Between::CornerEdge(found) => format!("ce {}", against(found)),
        Between::EdgeCorner(found) => format!("ec {}", against(found)),
    };
    format!("{words} {w}")
}

pub fn greatest(given: &Given) -> Answer {
    let ([a, b], floor) = given.shapes()?;
    let (squared, i, j) = measure::greatest(&a, &b);
    Ok(format!("{squared} {i} {j} @{floor}"))
}

/// The new shape, then the old one.
pub fn excess(given: &Given) -> Answer {
    let ([new, old], floor) = given.shapes()?;
    let Some(found) = excess::excess(&new, &old) else {
        return Ok(format!("inside @{floor}"));
    };
    let (c, up) = (found.corner, found.up);
    Ok(match found.place {
        Place::Corner { j, d } => format!("cc {c} {j} {d} {up} @{floor}"),
        Place::Edge { e, t, q } => format!("ce {c} {e} {t} {q} {up} @{floor}"),
    })
}

/// The left obstacle, the right one, then the cart's outline.
pub fn passage(given: &Given) -> Answer {
    let ([left, right, cart], floor) = given.shapes()?;
    let Some(way) = passage::passage(&left, &right, &cart)? else {
        return Ok(format!("blocked @{floor}"));
    };
    let (d, low, high) = (way.across, way.low, way.high);
    Ok(format!(
        "{} {} {low} {high} {} @{floor}",
        d.x, d.y, way.width
    ))
}

/// The obstacle, the cart's outline, then where its place begins and where it ends.
pub fn contact(given: &Given) -> Answer {
    let ([obstacle, cart], floor) = given.shapes()?;
    let Some(first) = contact::contact(&obstacle, &cart, given.places())? else {
        return Ok(format!("never @{floor}"));
    };
    Ok(format!("{} @{floor}", contact_words(first)))
}

/// The fraction of the way, and the millimetres before it.
fn contact_words(Contact { n, d, safe }: Contact) -> String {
    format!("{n} {d} {safe}")
}

pub fn tangents(given: &Given) -> Answer {
    let ([a, b], floor) = given.shapes()?;
    let lines = tangents::tangents(&a, &b)?;
    let lines = lines.map(|(i, j)| format!("{i} {j}")).join(" ");
    Ok(format!("{lines} @{floor}"))
}

pub fn tablet(given: &Given) -> Answer {
    let corner = tablet::corner(given.readings())?;
    Ok(corner
        .map(|number| format!("0x{:016x}", tablet::bits(number)))
        .join(" "))
}

pub fn log_read(given: &Given) -> Answer {
    let (shape, floor) = log::read(given.log(), given.name())?;
    written(given, shape, floor)
}

pub fn log_add(given: &Given) -> Answer {
    let mut log = given.log().to_vec();
    let (list, floor) = given.list();
    let finished = log::add(&mut log, given.name(), floor, list, given.stores())?;
    Ok(stored(finished, &log))
}

/// The old log, then the new run.
pub fn log_pack(given: &Given) -> Answer {
    let [old, new] = given.bytes();
    let mut new = new.to_vec();
    let finished = pack::pack(old, &mut new, given.but(), given.stores())?;
    Ok(stored(finished, &new))
}

pub fn entry(given: &Given) -> Answer {
    let held = log::current(given.log())?;
    let found = held.into_iter().nth(given.position());
    let entry = found.ok_or(Refusal::plain(20))?;
    let shape = held_by(given.room(), entry.shape)?;
    let (count, name, floor) = (shape.len(), entry.name, entry.floor);
    Ok(format!(
        "{count} {name} @{floor} |{}",
        behind_spaces(&shape)
    ))
}

pub fn nearest(given: &Given) -> Answer {
    let ([shape], floor) = given.shapes()?;
    let (name, found) = around::nearest(given.log(), &shape, floor, given.but())?;
    Ok(format!("{name} {} @{floor}", clearance_words(found)))
}

pub fn gap(given: &Given) -> Answer {
    let ([cart], floor) = given.shapes()?;
    let ([first, second], found) = around::gap(given.log(), &cart, floor)?;
    let words = clearance_words(found);
    Ok(format!("{first} {second} {words} @{floor}"))
}

/// The cart's outline, then where its place begins and where it ends.
pub fn drive(given: &Given) -> Answer {
    let ([cart], floor) = given.shapes()?;
    let Some((name, first)) = around::drive(given.log(), &cart, floor, given.places())? else {
        return Ok(format!("never @{floor}"));
    };
    Ok(format!("{name} {} @{floor}", contact_words(first)))
}

/// Whether all stores were made, and the bytes afterwards.
fn stored(finished: bool, bytes: &[u8]) -> String {
    let word = if finished { "finished" } else { "cut" };
    format!("{word} | {}", log_text(bytes))
}

pub fn host_judge(given: &Given) -> String {
    let ([a], [f]) = (given.bytes(), given.floors());
    number(host::judge(a, f))
}

pub fn host_sum(given: &Given) -> String {
    with_output(given, host::sum)
}

pub fn host_merge(given: &Given) -> String {
    with_output(given, host::merge)
}

pub fn host_relation(given: &Given) -> String {
    let ([a, b], [f, g]) = (given.bytes(), given.floors());
    number(host::relation(a, f, b, g))
}

/// The number of a call, and after a bar what it wrote, if it was answered.
fn with_output(given: &Given, call: host::Writes) -> String {
    let ([a, b], [f, g]) = (given.bytes(), given.floors());
    let mut out = vec![0; given.output()];
    let told = call(a, f, b, g, &mut out);
    let corners = if told & 0xFF == 0 {
        told >> 16 & 0xFFFF
    } else {
        0
    };
    let written = log_text(&out[..8 * corners as usize]);
    let space = if written.is_empty() { "" } else { " " };
    format!("{} |{space}{written}", number(told))
}

/// All of its 64 bits.
fn number(told: u64) -> String {
    format!("0x{told:016x}")
}

/// The bytes in pairs of digits.
pub fn log_text(log: &[u8]) -> String {
    log.iter().map(|byte| format!("{byte:02X}")).collect()
}

/// The numbers of corners, with a space before each.
fn behind_spaces(corners: &[Point]) -> String {
    let numbers = corners.iter().map(|c| format!(" {} {}", c.x, c.y));
    numbers.collect()
}

/// The shape as it is in the lent output, if that has the room.
fn written(given: &Given, shape: Shape, floor: u16) -> Answer {
    let shape = held_by(given.room(), shape)?;
    let (count, numbers) = (shape.len(), behind_spaces(&shape));
    Ok(format!("{count} @{floor} |{numbers}"))
}
