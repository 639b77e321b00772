//! What a request wishes: the members of its body.
use super::bounds;
use super::outgoing::Bad;
use super::text::Change;
use crate::escape::quoted;
use crate::formats::value::{self, Is, Value};
use crate::name::Name;

/// The members of a request's body.
#[derive(Clone, Debug, PartialEq, Eq)]
pub struct Wish(Vec<(String, Value)>);

impl Wish {
    /// Reads a body.
    ///
    /// # Errors
    /// It is no JSON object.
    pub fn read(body: &[u8]) -> Result<Wish, Bad> {
        let text = std::str::from_utf8(body);
        let text = text.map_err(|_| Bad::request("the body is no text"))?;
        let body = value::read(text, bounds::JSON);
        let body = body.map_err(|wrong| Bad::request(format!("the body is no JSON: {wrong}")))?;
        match body.is {
            Is::Object(members) => Ok(Wish(members)),
            _ => Err(Bad::request("the body is no JSON object")),
        }
    }

    fn get(&self, key: &str) -> Option<&Is> {
        let found = self.0.iter().find(|(own, _)| own == key);
        found.map(|(_, value)| &value.is)
    }

    /// Returns a name.
    ///
    /// # Errors
    /// It is none.
    pub fn name(&self, key: &str) -> Result<Name, Bad> {
        self.optional_name(key)?
            .ok_or_else(|| needed(key, "a name"))
    }

    /// Returns a name that may be left out.
    ///
    /// # Errors
    /// It is none.
    pub fn optional_name(&self, key: &str) -> Result<Option<Name>, Bad> {
        match self.get(key) {
            None | Some(Is::Null) => Ok(None),
            Some(Is::Text(text)) => match Name::read(text) {
                Ok(name) => Ok(Some(name)),
                Err(why) => Err(Bad::request(format!("{} is no name: {why}", quoted(text)))),
            },
            Some(_) => Err(needed(key, "a name")),
        }
    }

    /// Returns a floor.
    ///
    /// # Errors
    /// It is none.
    pub fn floor(&self) -> Result<u16, Bad> {
        let floor = self.get("floor").and_then(whole);
        let floor = floor.and_then(|floor| floor.try_into().ok());
        floor.ok_or_else(|| needed("floor", "a number from 0 to 65535"))
    }

    /// Returns a place.
    ///
    /// # Errors
    /// It is not two whole numbers.
    pub fn place(&self, key: &str) -> Result<[i32; 2], Bad> {
        let place = self.get(key).and_then(corner);
        place.ok_or_else(|| needed(key, "a place [x, y] of two whole numbers"))
    }

    /// Returns a list of places.
    ///
    /// # Errors
    /// It is none, or one of them is not two whole numbers.
    pub fn places(&self, key: &str) -> Result<Vec<[i32; 2]>, Bad> {
        let wrong = || needed(key, "a list of places [x, y] of two whole numbers");
        let Some(Is::List(places)) = self.get(key) else {
            return Err(wrong());
        };
        let places: Option<Vec<[i32; 2]>> = places.iter().map(|place| corner(&place.is)).collect();
        places.ok_or_else(wrong)
    }

    /// Returns the changes of the map; none if they are left out.
    ///
    /// # Errors
    /// One of them is none, there are too many, or two are of one name.
    pub fn changes(&self) -> Result<Vec<Change>, Bad> {
        let changes = match self.get("changes") {
            None | Some(Is::Null) => return Ok(Vec::new()),
            Some(Is::List(changes)) if changes.len() <= bounds::CHANGES => changes,
            Some(_) => return Err(needed("changes", "a list that is not too long")),
        };
        let mut read: Vec<Change> = Vec::new();
        for change in changes {
            let Is::Object(members) = &change.is else {
                return Err(needed("changes", "a list of objects"));
            };
            let change = Wish(members.clone()).change()?;
            if read.iter().any(|other| other.name == change.name) {
                return Err(needed("changes", "a list without a name twice"));
            }
            read.push(change);
        }
        Ok(read)
    }

    /// Returns a shape as it is to be: its name, its floor and its corners; without corners it is taken off.
    ///
    /// # Errors
    /// One of them is missing.
    pub fn change(&self) -> Result<Change, Bad> {
        Ok(Change {
            name: self.name("name")?,
            floor: self.floor()?,
            corners: self.places("corners")?,
        })
    }
}

fn needed(key: &str, what: &str) -> Bad {
    Bad::request(format!("`{key}` has to be {what}"))
}

fn whole(value: &Is) -> Option<i32> {
    match value {
        Is::Number(number) => number.parse().ok(),
        _ => None,
    }
}

fn corner(value: &Is) -> Option<[i32; 2]> {
    match value {
        Is::List(parts) => match parts.as_slice() {
            [x, y] => Some([whole(&x.is)?, whole(&y.is)?]),
            _ => None,
        },
        _ => None,
    }
}
