//! Two maps compared, name by name. How far a changed shape reaches beyond the old one is the library's answer, both
//! ways; comparing lists of numbers is the desk's own.
use crate::answer::Refused;
use crate::called::Called;
use crate::given::{Given, Pair};
use crate::map::{Entry, Map};
use crate::name::Name;
use crate::question::{OfTwo, Question};
use cocklesway::{Beyond, Excess};

/// What became of a name.
#[derive(Clone, Debug, PartialEq)]
pub enum Change {
    /// Only the new map has it.
    Added(Given),
    /// Only the old map has it.
    Removed(Given),
    /// Both have it, with other corners.
    Changed {
        /// The shape of the old map.
        old: Given,
        /// The shape of the new map.
        new: Given,
        /// How far the new shape reaches beyond the old one.
        beyond: Excess,
        /// How far the old shape reached beyond the new one.
        back: Excess,
    },
    /// Both have it, on different floors, or once as an outline.
    Elsewhere {
        /// The shape of the old map.
        old: Given,
        /// The shape of the new map.
        new: Given,
    },
    /// Both have it, with the same corners on the same floor.
    Same(Given),
}

/// Returns what became of each name: those of the old map in its order, then those that were added.
///
/// # Errors
/// The library's refusal.
pub fn changes(old: &Map, new: &Map) -> Result<Vec<Change>, Refused> {
    let own = |map: &Map| -> Vec<Given> { map.shapes().map(|(shape, _)| shape.clone()).collect() };
    let kept = own(old).into_iter().map(|was| match shape_of(new, &was) {
        Some(is) => change(was, is),
        None => Ok(Change::Removed(was)),
    });
    let added = own(new)
        .into_iter()
        .filter(|shape| shape_of(old, shape).is_none());
    kept.chain(added.map(|shape| Ok(Change::Added(shape))))
        .collect()
}

/// The shape of a map with the same name.
fn shape_of(map: &Map, shape: &Given) -> Option<Given> {
    match &map.get(shape.name.as_ref()?)?.entry {
        Entry::Shape { shape, .. } => Some(shape.clone()),
        Entry::Removed => None,
    }
}

fn change(old: Given, new: Given) -> Result<Change, Refused> {
    if old == new {
        return Ok(Change::Same(new));
    }
    if old.floor != new.floor {
        return Ok(Change::Elsewhere { old, new });
    }
    Ok(Change::Changed {
        beyond: excess(&new, &old)?,
        back: excess(&old, &new)?,
        old,
        new,
    })
}

/// Asks how far a changed shape reaches beyond the old one.
///
/// # Errors
/// The question, with its refusal.
pub fn excess(new: &Given, old: &Given) -> Result<Excess, Refused> {
    let pair = Pair {
        a: new.clone(),
        b: old.clone(),
    };
    let (a, b) = pair.lent();
    let found = cocklesway::excess(a, b);
    found.map_err(|refusal| Refused::new(Question::Two(pair, OfTwo::Excess), refusal))
}

impl Change {
    /// Returns the word for it.
    #[must_use]
    pub fn word(&self) -> &'static str {
        match self {
            Change::Added(_) => "added",
            Change::Removed(_) => "removed",
            Change::Changed { .. } => "changed",
            Change::Elsewhere { .. } => "elsewhere",
            Change::Same(_) => "same",
        }
    }

    /// Returns the name.
    #[must_use]
    pub fn name(&self) -> Option<&Name> {
        match self {
            Change::Added(shape) | Change::Removed(shape) | Change::Same(shape) => {
                shape.name.as_ref()
            }
            Change::Changed { new, .. } | Change::Elsewhere { new, .. } => new.name.as_ref(),
        }
    }

    /// Returns the old shape and the new one.
    #[must_use]
    pub fn shapes(&self) -> [Option<&Given>; 2] {
        match self {
            Change::Added(new) => [None, Some(new)],
            Change::Removed(old) => [Some(old), None],
            Change::Changed { old, new, .. } | Change::Elsewhere { old, new } => {
                [Some(old), Some(new)]
            }
            Change::Same(shape) => [Some(shape), Some(shape)],
        }
    }

    /// Returns it in words.
    #[must_use]
    pub fn sentence(&self) -> String {
        match self {
            Change::Added(new) => format!("{new} is added{}", place(new)),
            Change::Removed(old) => format!("{old} is removed{}", place(old)),
            Change::Same(shape) => format!("{shape} is the same{}", place(shape)),
            Change::Elsewhere { old, new } => {
                format!("{new} is{} now, and was{}", place(new), place(old))
            }
            Change::Changed {
                old,
                new,
                beyond,
                back,
            } => {
                let now = reach("it", "the old one", [new, old], *beyond);
                let then = reach("the old one", "it", [old, new], *back);
                format!("{new} changed{}: {now}; {then}", place(new))
            }
        }
    }
}

/// ` on floor 2`, or ` an outline`.
fn place(shape: &Given) -> String {
    match shape.floor {
        Some(floor) => format!(" on floor {floor}"),
        None => " as an outline".to_string(),
    }
}

/// How far the one reaches beyond the other, and to which of its corners.
fn reach(one: &str, other: &str, [a, b]: [&Given; 2], found: Excess) -> String {
    let (corner, from) = match found.beyond {
        None => return format!("{one} is inside {other}"),
        Some(Beyond::Corners { corner, other, .. }) => (corner, b.corner(other).to_string()),
        Some(Beyond::Edge { corner, edge, .. }) => (corner, format!("edge {}", b.edge(edge))),
    };
    let to = Called::own(a).shape.corner(corner);
    format!(
        "{one} reaches at most {} mm beyond {other}, rounded up, from {from} to {to}",
        found.up()
    )
}
