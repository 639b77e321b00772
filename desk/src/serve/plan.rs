//! The map that is shown, as it is in the file and with the page's changes.
use super::outgoing::Bad;
use super::text::{Change, changed};
use crate::escape::quoted;
use crate::floor::Floor;
use crate::given::Given;
use crate::map::{Entry, Map};
use crate::name::Name;
use crate::question::{OfOne, Question};
use crate::session::{Event, Outcome, Session};
use crate::source::Source;
use std::sync::{Arc, Mutex, PoisonError};

/// A map, read line by line as `cocklesway ask` reads it.
#[derive(Clone, Debug)]
pub struct Plan {
    /// The file.
    pub source: Source,
    /// The shapes by their names.
    pub map: Map,
    /// What came of each line.
    pub events: Vec<Event>,
}

/// The map of a server: as the file had it, and as it was last asked about.
#[derive(Debug)]
pub struct World {
    original: Arc<Plan>,
    last: Mutex<Option<(Vec<Change>, Arc<Plan>)>>,
}

impl Plan {
    /// Reads a file, and asks its questions.
    #[must_use]
    pub fn read(source: Source) -> Plan {
        let mut session = Session::new();
        let mut events = Vec::new();
        let Ok(()) = session.read(&source, |event| {
            events.push(event);
            Ok::<(), std::convert::Infallible>(())
        });
        let map = session.map().clone();
        Plan {
            source,
            map,
            events,
        }
    }

    /// Returns the shape of a name.
    ///
    /// # Errors
    /// The map has none.
    pub fn named(&self, name: &Name) -> Result<&Given, Bad> {
        if let Some(Entry::Shape { shape, .. }) = self.map.get(name).map(|item| &item.entry) {
            return Ok(shape);
        }
        let name = quoted(name.as_str());
        Err(Bad::request(format!("the map has no shape {name}")))
    }

    /// Returns the outline of a name: a cart.
    ///
    /// # Errors
    /// The map has no such outline.
    pub fn cart(&self, name: &Name) -> Result<&Given, Bad> {
        let cart = self.named(name)?;
        match cart.floor {
            None => Ok(cart),
            Some(_) => Err(Bad::request(format!("{cart} is no outline"))),
        }
    }

    /// Returns the obstacles of a floor, without a cart that is driven there.
    ///
    /// # Errors
    /// There are more than the names of a book.
    pub fn floor(&self, number: u16, cart: Option<&Given>) -> Result<Floor, Bad> {
        let floor = Floor::of(&self.map, number, cart);
        floor.map_err(|_| Bad::request("the floor has more than 65536 shapes"))
    }

    /// Returns the lists that are written as shapes and refused, as long as their names have no shape.
    pub fn refused(&self) -> impl Iterator<Item = (&Event, &Given)> {
        self.events.iter().filter_map(|event| {
            let Outcome::Refused(refused) = &event.outcome else {
                return None;
            };
            let Question::One(shape, OfOne::Judge) = &*refused.question else {
                return None;
            };
            let item = self.map.get(event.name.as_ref()?)?;
            let is_last = item.entry == Entry::Removed && item.place == event.place;
            is_last.then_some((event, shape))
        })
    }
}

impl World {
    /// Reads a file.
    #[must_use]
    pub fn new(source: Source) -> World {
        World {
            original: Arc::new(Plan::read(source)),
            last: Mutex::new(None),
        }
    }

    /// Returns the map as the file has it.
    #[must_use]
    pub fn original(&self) -> Arc<Plan> {
        self.original.clone()
    }

    /// Returns the map with changes. The last one is kept, since most questions are about the same.
    ///
    /// # Errors
    /// A change is about what is no shape of the file.
    pub fn plan(&self, changes: &[Change]) -> Result<Arc<Plan>, Bad> {
        if changes.is_empty() {
            return Ok(self.original());
        }
        let mut last = self.last.lock().unwrap_or_else(PoisonError::into_inner);
        if let Some((of, plan)) = &*last
            && of == changes
        {
            return Ok(plan.clone());
        }
        let Plan { source, map, .. } = &*self.original;
        let bytes = changed(source, map, changes)?;
        let plan = Arc::new(Plan::read(Source {
            name: source.name.clone(),
            bytes,
        }));
        *last = Some((changes.to_vec(), plan.clone()));
        Ok(plan)
    }
}
