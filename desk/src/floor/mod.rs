//! The obstacles of one floor, all asked at once. They are a book in memory, so that the library's own questions on
//! whole floors answer.
//!
//! | module | subject |
//! |---|---|
//! | [`mod@gaps`] | every two, and the gap between them |
//! | [`across`] | what a cart needs in the direction of a gap |
//! | [`mod@stand`] | what a cart meets at a place |
//! | [`mod@drive`] | what a cart meets on straight drives |
//! | [`doubles`] | obstacles that overlap or are equal, and names that differ only in case |
pub mod across;
pub mod doubles;
pub mod drive;
pub mod gaps;
pub mod stand;

use crate::answer::{Refused, made};
use crate::called::{Called, between};
use crate::given::{Given, Pair};
use crate::map::{Map, Origin};
use crate::question::{Around, Making, Narrowest, Question, Record};
use crate::refusal;
use cocklesway::{Book, Meeting, Nearest, Refusal};

/// Bytes of a record besides its corners, and for each corner.
const RECORD: usize = 9;
const CORNER: usize = 8;

/// The obstacles of a floor.
#[derive(Clone, Debug, PartialEq, Eq)]
pub struct Floor {
    /// The floor.
    pub number: u16,
    /// The obstacles, in the order of the map. Their positions are the names of their records.
    pub shapes: Vec<Given>,
    book: Vec<u8>,
}

/// Returns whether a shape is a thing on a floor. What is grown, summed or mirrored is none.
#[must_use]
pub fn is_thing(origin: &Origin) -> bool {
    match origin {
        Origin::Written => true,
        Origin::Made(making) => {
            !matches!(making, Making::Grow(_) | Making::Sum(_) | Making::Mirror(_))
        }
    }
}

/// Returns whether a shape is the cart, or the cart at a place.
#[must_use]
pub fn is_cart(shape: &Given, origin: &Origin, cart: &Given) -> bool {
    let moved = match origin {
        Origin::Made(Making::At(pair)) => pair.a.name.as_ref(),
        _ => None,
    };
    cart.name.is_some() && (shape.name == cart.name || moved == cart.name.as_ref())
}

/// Returns an obstacle grown by a cart's outline: where the cart's origin is when they meet.
///
/// # Errors
/// The library's refusal.
pub fn grown(obstacle: &Given, cart: &Given) -> Result<Given, Refused> {
    let (a, b) = (obstacle.clone(), cart.clone());
    made(Making::Grow(Pair { a, b }))
}

/// Returns the floors of a map's shapes, in order.
#[must_use]
pub fn floors(map: &Map) -> Vec<u16> {
    let things = map.shapes().filter(|(_, origin)| is_thing(origin));
    let mut floors: Vec<u16> = things.filter_map(|(shape, _)| shape.floor).collect();
    floors.sort_unstable();
    floors.dedup();
    floors
}

impl Floor {
    /// Puts the obstacles of a floor into a book. The cart and what is the cart at a place are none.
    ///
    /// # Errors
    /// The library refuses to add one: a book has 65,536 names.
    pub fn of(map: &Map, number: u16, cart: Option<&Given>) -> Result<Floor, Refused> {
        let things = map.shapes().filter(|(shape, origin)| {
            let is_cart = cart.is_some_and(|cart| is_cart(shape, origin, cart));
            shape.floor == Some(number) && is_thing(origin) && !is_cart
        });
        Floor::new(number, things.map(|(shape, _)| shape.clone()).collect())
    }

    /// Puts shapes of a floor into a book. Each is added to a book of its own, and these are put together, since a book
    /// is a run of records: an addition reads all that was added before.
    ///
    /// # Errors
    /// The library refuses to add one.
    pub fn new(number: u16, shapes: Vec<Given>) -> Result<Floor, Refused> {
        let mut book = Vec::new();
        for (position, shape) in shapes.iter().enumerate() {
            let name = u16::try_from(position).map_err(|_| Refusal::Full);
            let mut record = vec![0; RECORD + CORNER * shape.corners().len()];
            let mut own = Book::new(&mut record);
            let added = name.and_then(|name| own.add(name, shape.on(number), usize::MAX));
            // With `usize::MAX` allowed an addition is finished.
            let _ = added.map_err(|refusal| not_added(shape, refusal))?;
            book.extend(record);
        }
        Ok(Floor {
            number,
            shapes,
            book,
        })
    }

    /// Returns the obstacle that is nearest to a shape, without one of them, and where they are nearest; nothing for
    /// the place if they are not apart. One call of the library.
    ///
    /// # Errors
    /// The library's refusal: 20 if the floor has no such obstacle.
    pub fn nearest(
        &self,
        shape: &Given,
        but: Option<usize>,
    ) -> Result<(usize, Option<Nearest>), Refused> {
        let but = but.and_then(|but| u16::try_from(but).ok());
        let found = cocklesway::log_nearest(&self.book, shape.on(self.number), but);
        let refused = |refusal| Refused::new(self.asked_nearest(shape, but), refusal);
        let found = found.map_err(refused)?;
        Ok((found.name.into(), found.nearest))
    }

    fn asked_nearest(&self, shape: &Given, but: Option<u16>) -> Question {
        Question::Nearest(Around {
            log: Vec::new(),
            shape: self.here(shape),
            but,
        })
    }

    /// Returns the two obstacles with the narrowest gap for a cart, and where their grown shapes are nearest. One call
    /// of the library.
    ///
    /// # Errors
    /// The library's refusal: 20 if the floor has fewer than two obstacles.
    pub fn narrowest(&self, cart: &Given) -> Result<([usize; 2], Option<Nearest>), Refused> {
        let found = cocklesway::log_gap(&self.book, cart.on(self.number));
        let refused = |refusal| {
            let (log, cart) = (self.book.clone(), self.here(cart));
            Refused::new(Question::Gap(Narrowest { log, cart }), refusal)
        };
        let found = found.map_err(refused)?;
        Ok((found.names.map(usize::from), found.nearest))
    }

    /// Returns the first obstacle that a cart meets on a straight drive, and where: the first of the map of several.
    /// One call of the library.
    ///
    /// # Errors
    /// The library's refusal: 20 if the floor has no obstacle.
    pub fn contact(
        &self,
        cart: &Given,
        [from, to]: [[i32; 2]; 2],
    ) -> Result<Option<(usize, Meeting)>, Refusal> {
        let found = cocklesway::log_contact(&self.book, cart.on(self.number), from, to)?;
        Ok(found.first.map(|(name, meeting)| (name.into(), meeting)))
    }

    /// Returns a shape on this floor if it has none of its own.
    #[must_use]
    pub fn here(&self, shape: &Given) -> Given {
        Given {
            floor: shape.floor.or(Some(self.number)),
            ..shape.clone()
        }
    }

    /// Returns the obstacle at a position.
    #[must_use]
    pub fn shape(&self, position: usize) -> Option<&Given> {
        self.shapes.get(position)
    }

    /// Returns the position of a shape among the obstacles.
    #[must_use]
    pub fn position(&self, shape: &Given) -> Option<usize> {
        let own = |other: &Given| shape.name.is_some() && other.name == shape.name;
        self.shapes.iter().position(own)
    }

    /// Returns the point of a place on this floor.
    #[must_use]
    pub fn place(&self, at: [i32; 2]) -> Given {
        Given {
            name: None,
            numbers: at.into(),
            floor: Some(self.number),
        }
    }

    /// Returns which obstacle is nearest to a shape, in words.
    #[must_use]
    pub fn neighbour(
        &self,
        called: &Called<'_>,
        (position, found): (usize, Option<Nearest>),
    ) -> String {
        let (Some(near), number, label) = (self.shape(position), self.number, &called.label) else {
            return String::new();
        };
        match found {
            None => format!(
                "{near} is the first that meets {label} on floor {number}: they have points in common"
            ),
            Some(found) => {
                let (distance, places) = between([called, &Called::own(near)], found);
                format!(
                    "{near} is nearest to {label} on floor {number}: {distance}, between {places}"
                )
            }
        }
    }

    /// Returns why a question on this floor was refused.
    #[must_use]
    pub fn reason(&self, refused: &Refused) -> String {
        let number = self.number;
        match (refused.refusal, &*refused.question) {
            (Refusal::TooFew, Question::Gap(_)) => {
                format!("floor {number} of the map has fewer than two shapes")
            }
            (Refusal::TooFew, _) if self.shapes.is_empty() => {
                format!("floor {number} of the map has no shape")
            }
            (Refusal::TooFew, _) => format!("floor {number} of the map has no other shape"),
            _ => refusal::reason(refused),
        }
    }
}

/// A shape that is not in the book.
fn not_added(shape: &Given, refusal: Refusal) -> Refused {
    let (shape, name) = (shape.clone(), u16::MAX);
    let record = Record {
        log: Vec::new(),
        name,
        shape,
        stores: None,
    };
    Refused::new(Question::Add(record), refusal)
}
