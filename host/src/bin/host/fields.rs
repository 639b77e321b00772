//! The fields of a line.
use crate::fault::Unreadable;
use crate::words::{self, trimmed, words};
use cocklesway::{Reading, Shape, Walk};
use std::vec;

/// How many numbers the fields of a line may hold together. Floors do not count.
const MOST_NUMBERS: usize = 16_384;

/// How many bytes the output of a call on bytes may have.
const MOST_OUTPUT: usize = 65_536;

/// How a field is written.
#[derive(Clone, Copy, Debug, PartialEq, Eq)]
pub enum Kind {
    /// Numbers, and before them perhaps a floor, an at sign and its number. Without one the floor is 0.
    List,
    /// Numbers.
    Numbers,
    /// Numbers. The field may be left out.
    Optional,
    Reading,
    Bytes,
    /// Words of two numbers with a colon between them.
    Calls,
    /// The floor of a call on bytes.
    Floor,
    /// How many bytes the output of a call on bytes has.
    Output,
}

/// A list of numbers and its floor.
#[derive(Clone, Debug, PartialEq, Eq)]
pub struct List {
    numbers: Vec<i32>,
    floor: u32,
}

impl List {
    pub fn shape(&self) -> Shape<'_> {
        Shape::of_numbers(&self.numbers, self.floor)
    }
}

/// A call of a sum in parts: how many corners it may write, and how many numbers its output holds.
#[derive(Clone, Copy, Debug, PartialEq, Eq)]
pub struct Call {
    pub k: usize,
    pub room: usize,
}

#[derive(Clone, Debug, PartialEq)]
enum Field {
    List(List),
    Reading(Reading),
    Bytes(Vec<u8>),
    Calls(Vec<Call>),
    Whole(u32),
}

/// The fields that are still to be taken. Each is taken as its row says.
pub struct Fields(vec::IntoIter<Field>);

impl Fields {
    /// Reads the texts of a line's fields: first their count is settled, then all are read.
    pub fn read(kinds: &[Kind], texts: &[&[u8]]) -> Result<Fields, Unreadable> {
        if texts.len() > kinds.len() {
            return Err(Unreadable::TooManyFields);
        }
        let mut left_out = kinds[texts.len()..].iter();
        if left_out.any(|&kind| kind != Kind::Optional) {
            return Err(Unreadable::MissingField);
        }
        let mut reader = Reader { left: MOST_NUMBERS };
        let read = |(&kind, text): (&Kind, &&[u8])| reader.read(kind, text);
        let fields: Result<Vec<Field>, Unreadable> = kinds.iter().zip(texts).map(read).collect();
        Ok(Fields(fields?.into_iter()))
    }

    pub fn list(&mut self) -> List {
        match self.0.next() {
            Some(Field::List(list)) => list,
            other => unreachable!("a list was read, not {other:?}"),
        }
    }

    pub fn reading(&mut self) -> Reading {
        match self.0.next() {
            Some(Field::Reading(reading)) => reading,
            other => unreachable!("a reading was read, not {other:?}"),
        }
    }

    pub fn bytes(&mut self) -> Vec<u8> {
        match self.0.next() {
            Some(Field::Bytes(bytes)) => bytes,
            other => unreachable!("bytes were read, not {other:?}"),
        }
    }

    pub fn calls(&mut self) -> Vec<Call> {
        match self.0.next() {
            Some(Field::Calls(calls)) => calls,
            other => unreachable!("calls were read, not {other:?}"),
        }
    }

    /// A floor, or the length of an output.
    pub fn whole(&mut self) -> u32 {
        match self.0.next() {
            Some(Field::Whole(number)) => number,
            other => unreachable!("a number was read, not {other:?}"),
        }
    }

    pub fn direction(&mut self) -> Result<[i32; 2], Unreadable> {
        self.numbers()
    }

    pub fn place(&mut self) -> Result<[i32; 2], Unreadable> {
        self.numbers()
    }

    pub fn name(&mut self) -> Result<u16, Unreadable> {
        let [name] = self.numbers()?;
        name.try_into().map_err(|_| Unreadable::NotAName)
    }

    /// A name, or nobody's.
    pub fn but(&mut self) -> Result<Option<u16>, Unreadable> {
        if self.0.as_slice().is_empty() {
            return Ok(None);
        }
        let numbers = self.list().numbers;
        let [name] = numbers[..] else {
            return numbers
                .is_empty()
                .then_some(None)
                .ok_or(Unreadable::WrongCount);
        };
        name.try_into().map(Some).map_err(|_| Unreadable::NotAName)
    }

    pub fn position(&mut self) -> Result<usize, Unreadable> {
        let [position] = self.numbers()?;
        whole(position)
    }

    /// A count, if the field was not left out.
    pub fn count(&mut self) -> Result<Option<usize>, Unreadable> {
        if self.0.as_slice().is_empty() {
            return Ok(None);
        }
        let [count] = self.numbers()?;
        whole(count).map(Some)
    }

    pub fn walk(&mut self) -> Result<Walk, Unreadable> {
        let [first, second, over] = self.numbers()?;
        match (usize::try_from(first), usize::try_from(second), over) {
            (Ok(first), Ok(second), 0 | 1) => Ok(Walk::at(first, second, over == 1)),
            _ => Err(Unreadable::NotAWalk),
        }
    }

    pub fn call(&mut self) -> Result<Call, Unreadable> {
        let [k, room] = self.numbers()?;
        Ok(Call {
            k: whole(k)?,
            room: whole(room)?,
        })
    }

    /// COUNT numbers.
    fn numbers<const COUNT: usize>(&mut self) -> Result<[i32; COUNT], Unreadable> {
        let numbers = self.list().numbers;
        numbers.try_into().map_err(|_| Unreadable::WrongCount)
    }
}

fn whole(number: i32) -> Result<usize, Unreadable> {
    number.try_into().map_err(|_| Unreadable::NotACount)
}

/// Reads numbers, as long as the line may hold more of them.
struct Reader {
    left: usize,
}

impl Reader {
    fn read(&mut self, kind: Kind, text: &[u8]) -> Result<Field, Unreadable> {
        match kind {
            Kind::List => self.list(text).map(Field::List),
            Kind::Numbers | Kind::Optional => {
                let numbers = self.numbers(words(text))?;
                Ok(Field::List(List { numbers, floor: 0 }))
            }
            Kind::Calls => self.calls(text).map(Field::Calls),
            Kind::Reading => {
                let reading = words::reading(text).ok_or(Unreadable::NotAReading)?;
                Ok(Field::Reading(reading))
            }
            Kind::Bytes => {
                let bytes = words::bytes(text).ok_or(Unreadable::NotBytes)?;
                Ok(Field::Bytes(bytes))
            }
            Kind::Floor => {
                let floor = words::digits(trimmed(text)).ok_or(Unreadable::NotAFloor)?;
                Ok(Field::Whole(floor))
            }
            Kind::Output => {
                let output = words::digits(trimmed(text)).filter(|&n| n as usize <= MOST_OUTPUT);
                output.map(Field::Whole).ok_or(Unreadable::NotACount)
            }
        }
    }

    fn list(&mut self, text: &[u8]) -> Result<List, Unreadable> {
        let mut words = words(text).peekable();
        let floor = match words.next_if(|word| word.starts_with(b"@")) {
            Some(word) => words::floor(word).ok_or(Unreadable::NotAFloor)?,
            None => 0,
        };
        Ok(List {
            numbers: self.numbers(words)?,
            floor: floor.into(),
        })
    }

    /// The form of all is looked at before the first is read.
    fn calls(&mut self, text: &[u8]) -> Result<Vec<Call>, Unreadable> {
        let pairs: Option<Vec<_>> = words(text).map(words::pair).collect();
        let pairs = pairs.ok_or(Unreadable::NotACall)?;
        let mut call = |[k, room]: [&[u8]; 2]| {
            Ok(Call {
                k: whole(self.number(k)?)?,
                room: whole(self.number(room)?)?,
            })
        };
        pairs.into_iter().map(&mut call).collect()
    }

    fn numbers<'a>(
        &mut self,
        words: impl Iterator<Item = &'a [u8]>,
    ) -> Result<Vec<i32>, Unreadable> {
        words.map(|word| self.number(word)).collect()
    }

    fn number(&mut self, word: &[u8]) -> Result<i32, Unreadable> {
        let number = words::number(word).ok_or(Unreadable::NotANumber)?;
        self.left = self.left.checked_sub(1).ok_or(Unreadable::TooManyNumbers)?;
        Ok(number)
    }
}
