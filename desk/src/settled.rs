//! Which answers of an old map stay for a new one without asking again, by what is proved of `excess`
//! (`crates/excess/proofs/Meaning.antt`):
//!
//! - Shapes that were w mm apart are at least w - e - f apart after changes by e and f mm (`settled-with-both-moved`,
//!   `settled-answer-with-both-moved`), and a shape inside the old one stays apart (`inside-stays-apart`).
//! - A passage of w mm stays, with at least w - (e + g) - (f + g) for a cart that changed by g
//!   (`settled-passage-of-changed-cart`), and shapes inside the old ones leave it (`smaller-is-passable`).
//! - A drive that met nothing meets nothing (`settled-drive`).
//! - The nearest obstacle of a floor stays the nearest if no shape that was added or changed is strictly nearer, and it
//!   is none of these itself (`quiet-history-changes-nothing` of `crates/neighbours/specs/Meaning.antt`).
//!
//! The sums are the desk's own.
use crate::answer::{Refused, clearance, made};
use crate::changes::{Change, excess};
use crate::floor::{Floor, is_thing};
use crate::fraction::Fraction;
use crate::given::{Given, Pair, Trio};
use crate::map::{Entry, Map};
use crate::question::{Drive, Making, OfTwo, Question};
use std::fmt;

/// Whether an answer stays.
#[derive(Clone, Debug, PartialEq, Eq)]
pub enum Verdict {
    /// Nothing that it is about changed.
    Same,
    /// It stays: what was apart, passed or met nothing still does. The first number of millimetres is left of the
    /// second.
    Stays {
        /// What was.
        was: u64,
        /// What was lost at most.
        lost: u64,
    },
    /// This obstacle is still the nearest on its floor.
    Nearest(Given),
    /// It has to be asked anew.
    Anew(Why),
}

/// Why an answer has to be asked anew.
#[derive(Clone, Copy, Debug, PartialEq, Eq)]
pub enum Why {
    /// The changes may have taken all that was left.
    Lost {
        /// What was.
        was: u64,
        /// What was lost at most.
        lost: u64,
    },
    /// Nothing was left to lose.
    Nothing,
    /// A shape is on another floor.
    Floor,
    /// A shape of the floor is nearer now, or is removed, or the nearest itself changed.
    Around,
    /// No theorem is about a change of it.
    Unknown,
}

/// Returns whether the nearest obstacle to a shape on its floor stays the nearest. Of the new map, only shapes that
/// changed or were added are asked about.
///
/// # Errors
/// The library's refusal: 20 if the floor of the old map has no obstacle.
pub fn nearest(
    [old, new]: [&Map; 2],
    changes: &[Change],
    [was, is]: [&Given; 2],
) -> Result<Verdict, Refused> {
    if was != is {
        return Ok(Verdict::Anew(Why::Unknown));
    }
    let floor = Floor::of(old, was.floor.unwrap_or_default(), None)?;
    let (position, least) = floor.nearest(was, floor.position(was))?;
    let near = floor.shape(position).cloned();
    for change in changes {
        let [before, after] = change.shapes();
        let is_here = |shape: &Given| shape.floor == Some(floor.number);
        let is_near = before.is_some()
            && before.map(|shape| &shape.name) == near.as_ref().map(|near| &near.name);
        let is_quiet = match (change, before, after) {
            (Change::Same(_), ..) => true,
            _ if is_near => false,
            (_, Some(gone), None) => !is_here(gone) || !is_obstacle(old, gone),
            (_, _, Some(other)) if is_here(other) && is_obstacle(new, other) => {
                let (a, b) = (was.clone(), other.clone());
                let found = clearance(&Pair { a, b })?;
                Fraction::squared(found.nearest) >= Fraction::squared(least)
            }
            _ => true,
        };
        if !is_quiet {
            return Ok(Verdict::Anew(Why::Around));
        }
    }
    Ok(near.map_or(Verdict::Anew(Why::Around), Verdict::Nearest))
}

/// Whether a shape of a map is a thing on its floor.
fn is_obstacle(map: &Map, shape: &Given) -> bool {
    let item = shape.name.as_ref().and_then(|name| map.get(name));
    match item.map(|item| &item.entry) {
        Some(Entry::Shape { origin, .. }) => is_thing(origin),
        _ => false,
    }
}

/// Returns whether the answer to a question of the old map stays for the same question of the new one.
///
/// # Errors
/// The library refuses the question of the old map.
pub fn verdict(old: &Question, new: &Question) -> Result<Verdict, Refused> {
    if old == new {
        return Ok(Verdict::Same);
    }
    let (was, lost) = match (old, new) {
        (Question::Two(was, asked), Question::Two(is, _)) if is_distance(asked) => {
            (apart(was)?, lost(&[(&is.a, &was.a, 1), (&is.b, &was.b, 1)]))
        }
        (Question::Passage(was), Question::Passage(is)) => {
            let changes = [
                (&is.left, &was.left, 1),
                (&is.right, &was.right, 1),
                (&is.cart, &was.cart, 2),
            ];
            (width(was)?, lost(&changes))
        }
        (Question::Contact(was), Question::Contact(is)) => {
            let (is, pair) = (&is.pair, &was.pair);
            (
                clear(was)?,
                lost(&[(&is.a, &pair.a, 1), (&is.b, &pair.b, 1)]),
            )
        }
        _ => return Ok(Verdict::Anew(Why::Unknown)),
    };
    let is_drive = matches!(old, Question::Contact(_));
    Ok(match (was, lost) {
        (None, _) => Verdict::Anew(Why::Nothing),
        (_, None) => Verdict::Anew(Why::Floor),
        // Shapes inside the old ones take nothing away, however little there was. Of drives this is not stated.
        (Some(was), Some(0)) if !is_drive => Verdict::Stays { was, lost: 0 },
        (Some(was), Some(lost)) if lost < was => Verdict::Stays { was, lost },
        (Some(was), Some(lost)) => Verdict::Anew(Why::Lost { was, lost }),
    })
}

fn is_distance(asked: &OfTwo) -> bool {
    matches!(asked, OfTwo::Clearance | OfTwo::Relation)
}

/// How many millimetres two shapes are apart; nothing if they are not.
fn apart(pair: &Pair) -> Result<Option<u64>, Refused> {
    let found = clearance(pair)?;
    Ok(found.nearest.map(|_| found.rounded()))
}

/// How wide a passage is; nothing if there is none.
fn width(trio: &Trio) -> Result<Option<u64>, Refused> {
    let [left, right, cart] = trio.lent();
    let found = cocklesway::passage(left, right, cart);
    let refused = |refusal| Refused::new(Question::Passage(trio.clone()), refusal);
    Ok(found.map_err(refused)?.way.map(|way| way.width))
}

/// How far what a cart passes over on a straight drive is from the obstacle; nothing if it meets it.
fn clear(drive: &Drive) -> Result<Option<u64>, Refused> {
    let pair = &drive.pair;
    let ends = Given {
        name: None,
        numbers: [drive.from, drive.to].concat().into(),
        floor: pair.floor(),
    };
    let (a, b) = (pair.b.clone(), made(Making::Sweep(ends))?);
    let a = made(Making::Sum(Pair { a, b }))?;
    let b = pair.a.clone();
    apart(&Pair { a, b })
}

/// How much changes take at most, each times its number; nothing if a shape is on another floor.
fn lost(changes: &[(&Given, &Given, u64)]) -> Option<u64> {
    let mut sum: u64 = 0;
    for (new, old, times) in changes {
        let up = excess(new, old).ok()?.up();
        if new.floor != old.floor {
            return None;
        }
        sum = sum.saturating_add(up.saturating_mul(*times));
    }
    Some(sum)
}

impl Verdict {
    /// Returns whether the answer stays.
    #[must_use]
    pub fn stays(&self) -> bool {
        !matches!(self, Verdict::Anew(_))
    }

    /// Returns it in words, for a question.
    #[must_use]
    pub fn sentence(&self, question: &Question) -> String {
        let (word, shapes) = (question.word(), names(question));
        match self {
            Verdict::Same => format!("stays: {word} of {shapes}, of which nothing changed"),
            Verdict::Stays { was, lost } => {
                format!("stays: {}", held(question, &shapes, *was, *lost))
            }
            Verdict::Nearest(near) => format!("stays: {near} is still nearest to {shapes}"),
            Verdict::Anew(why) => format!("ask anew: {word} of {shapes}, {why}"),
        }
    }
}

/// What still holds.
fn held(question: &Question, shapes: &str, was: u64, lost: u64) -> String {
    let left = was.saturating_sub(lost);
    let sum = match lost {
        0 => "as before".to_string(),
        _ => format!("{was} mm less at most {lost} mm"),
    };
    match question {
        Question::Passage(trio) => {
            let Trio {
                left: l,
                right,
                cart,
            } = trio;
            format!(
                "{cart} still passes between {l} and {right} with at least {left} mm to spare, {sum}"
            )
        }
        Question::Contact(drive) => {
            let Pair { a, b } = &drive.pair;
            format!("{b} still is clear of {a} on its way, by at least {left} mm, {sum}")
        }
        _ => format!("{shapes} are still at least {left} mm apart, {sum}"),
    }
}

/// The shapes of a question, in words.
fn names(question: &Question) -> String {
    let shapes: Vec<String> = question.shapes().iter().map(ToString::to_string).collect();
    shapes.join(" and ")
}

impl fmt::Display for Why {
    fn fmt(&self, f: &mut fmt::Formatter<'_>) -> fmt::Result {
        match self {
            Why::Lost { was, lost } => {
                write!(f, "since up to {lost} mm of its {was} mm may be lost")
            }
            Why::Nothing => f.write_str("since there was nothing to lose"),
            Why::Around => f.write_str("since the nearest or what is around it changed"),
            Why::Floor => f.write_str("of which one is on another floor"),
            Why::Unknown => f.write_str("of which one changed"),
        }
    }
}
