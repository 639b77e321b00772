//! Every two obstacles of a floor, and the gap between them. Each gap is one answer of the library; going through all
//! pairs and putting them in order is a loop of the desk's own.
use super::across::needed;
use super::{Floor, grown};
use crate::answer::{Refused, clearance, relation};
use crate::called::{Called, between};
use crate::fraction::Fraction;
use crate::given::{Given, Pair};
use crate::question::{OfTwo, Question};
use cocklesway::{Nearest, Refusal, Relation};

/// A gap between two obstacles, by their positions.
#[derive(Clone, Copy, Debug, PartialEq, Eq)]
pub struct Gap {
    /// The obstacles.
    pub of: [usize; 2],
    /// Where they are nearest, or where their grown shapes are; nothing if these are not apart.
    pub nearest: Option<Nearest>,
}

/// Obstacles, and what gaps are measured between: these, or what they are when grown by a cart.
pub struct Solids<'a> {
    /// The floor.
    pub floor: &'a Floor,
    /// The cart.
    pub cart: Option<&'a Given>,
    grown: Vec<Given>,
}

impl<'a> Solids<'a> {
    /// Grows the obstacles by a cart, if there is one.
    ///
    /// # Errors
    /// The library refuses to grow one.
    pub fn new(floor: &'a Floor, cart: Option<&'a Given>) -> Result<Solids<'a>, Refused> {
        let shapes = floor.shapes.iter();
        let grown = shapes.filter_map(|shape| Some(grown(shape, cart?)));
        let grown = grown.collect::<Result<_, _>>()?;
        Ok(Solids { floor, cart, grown })
    }

    /// What gaps are measured between.
    fn all(&self) -> &[Given] {
        match self.cart {
            Some(_) => &self.grown,
            None => &self.floor.shapes,
        }
    }

    fn pair(&self, of: [usize; 2]) -> Option<Pair> {
        let [a, b] = of.map(|position| self.all().get(position).cloned());
        a.zip(b).map(|(a, b)| Pair { a, b })
    }

    /// Returns how many pairs there are.
    #[must_use]
    pub fn pairs(&self) -> usize {
        let count = self.floor.shapes.len();
        count * count.saturating_sub(1) / 2
    }

    /// Returns the narrowest gap, by one call of the library.
    ///
    /// # Errors
    /// The library's refusal: 20 if the floor has fewer than two obstacles.
    pub fn narrowest(&self) -> Result<Gap, Refused> {
        let point = self.floor.place([0, 0]);
        let (of, nearest) = self.floor.narrowest(self.cart.unwrap_or(&point))?;
        Ok(Gap { of, nearest })
    }

    /// Returns all gaps below a limit in millimetres, the narrowest first, and of equal ones those of the first
    /// obstacles. Obstacles that have points in common may be left out. After each obstacle it says how many pairs were
    /// asked.
    ///
    /// # Errors
    /// The library's refusal of a pair.
    pub fn below(
        &self,
        limit: u64,
        only_apart: bool,
        mut tick: impl FnMut(usize),
    ) -> Result<Vec<Gap>, Refused> {
        let (mut gaps, mut asked) = (Vec::new(), 0);
        for (first, a) in self.all().iter().enumerate() {
            for (second, b) in self.all().iter().enumerate().skip(first + 1) {
                let found = cocklesway::clearance(a.alone(), b.alone());
                let found = found.map_err(|refusal| refused(a, b, refusal))?;
                let (of, nearest) = ([first, second], found.nearest);
                let gap = Gap { of, nearest };
                if found.rounded() < limit && !(only_apart && self.is_joined(gap)?) {
                    gaps.push(gap);
                }
                asked += 1;
            }
            tick(asked);
        }
        gaps.sort_by_key(|gap| Fraction::squared(gap.nearest));
        Ok(gaps)
    }

    /// Whether the obstacles of a gap have points in common.
    fn is_joined(&self, gap: Gap) -> Result<bool, Refused> {
        let [a, b] = gap.of.map(|position| self.floor.shape(position).cloned());
        match (gap.nearest, a.zip(b)) {
            // Grown shapes that are apart are around obstacles that are.
            (Some(_), _) | (_, None) => Ok(false),
            (None, Some((a, b))) => Ok(relation(&Pair { a, b })? != Relation::Apart),
        }
    }

    /// Returns a gap in words.
    #[must_use]
    pub fn sentence(&self, gap: Gap) -> String {
        let own = gap.of.map(|position| self.floor.shape(position));
        let ([Some(a), Some(b)], Some(measured)) = (own, self.pair(gap.of)) else {
            return String::new();
        };
        let Some(cart) = self.cart else {
            return apart(a, b, gap.nearest);
        };
        let Some(nearest) = gap.nearest else {
            return blocked(cart, a, b);
        };
        let called = |shape, name: &Given| Called {
            shape,
            label: format!("grown {name}"),
        };
        let (distance, places) =
            between([&called(&measured.a, a), &called(&measured.b, b)], nearest);
        format!("{a} and {b} leave {cart} {distance} to spare, between {places}")
    }

    /// Returns the two shapes that a gap is measured between.
    #[must_use]
    pub fn measured(&self, gap: Gap) -> Option<Pair> {
        self.pair(gap.of)
    }
}

/// The question that was refused.
fn refused(a: &Given, b: &Given, refusal: Refusal) -> Refused {
    let (a, b) = (a.clone(), b.clone());
    Refused::new(Question::Two(Pair { a, b }, OfTwo::Clearance), refusal)
}

/// How far two obstacles are apart.
fn apart(a: &Given, b: &Given, nearest: Option<Nearest>) -> String {
    match nearest {
        Some(nearest) => {
            let (distance, places) = between([&Called::own(a), &Called::own(b)], nearest);
            format!("{a} and {b} are {distance} apart, between {places}")
        }
        None => format!("{a} and {b} are not apart: they have points in common"),
    }
}

/// Returns that a cart cannot pass straight between two obstacles, how far they are apart, and what it needs there.
#[must_use]
pub fn blocked(cart: &Given, a: &Given, b: &Given) -> String {
    let said = format!("{cart} cannot pass straight between {a} and {b}");
    format!("{said}: {}", room(cart, a, b))
}

/// Returns how far two obstacles are apart, and what a cart needs in that direction.
#[must_use]
pub fn room(cart: &Given, a: &Given, b: &Given) -> String {
    let pair = Pair {
        a: a.clone(),
        b: b.clone(),
    };
    let nearest = clearance(&pair).ok().and_then(|found| found.nearest);
    let Some(nearest) = nearest else {
        return "these are not apart".to_string();
    };
    let (distance, places) = between([&Called::own(a), &Called::own(b)], nearest);
    let apart = format!("the gap is {distance}, between {places}");
    match needed(cart, &pair, nearest) {
        Some(need) => format!("{apart}, and across it {cart} needs {need}"),
        None => apart,
    }
}
