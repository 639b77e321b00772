//! The fields of a line, each read as what its question needs there.
use crate::fault::Fault;
use crate::given::{Given, Pair, Trio};
use crate::lines::{Field, Line, Word};
use crate::map::{Entry, Map};
use crate::name::Name;
use crate::place::Place;
use crate::question::Call;
use crate::unit::Unit;
use crate::words::{byte, call, count, double, floor, is_numeric, length, list, number};
use cocklesway::{Reading, Walk};

/// Why a line is not asked.
#[derive(Clone, Debug, PartialEq)]
pub enum Unread {
    /// It cannot be read.
    Fault {
        /// The line of the file.
        line: usize,
        /// Why.
        fault: Fault,
    },
    /// It names a shape whose definition was refused.
    Removed {
        /// The line of the file.
        line: usize,
        /// The name.
        name: Name,
        /// Where it was refused.
        at: Place,
    },
    /// It has a decimal that is no whole number of millimetres: refusal 18.
    NotWhole {
        /// The line of the file.
        line: usize,
        /// The word.
        found: String,
        /// Its unit.
        unit: Unit,
    },
}

impl Unread {
    /// Returns the fault of a word.
    #[must_use]
    pub fn at(word: &Word<'_>, fault: Fault) -> Unread {
        Unread::Fault {
            line: word.line,
            fault,
        }
    }
}

/// What a field holds, for messages, and whether it may be left out.
#[derive(Clone, Copy, Debug, PartialEq, Eq)]
pub struct Part {
    /// What it holds.
    pub holds: &'static str,
    /// Whether it may be left out.
    pub optional: bool,
}

/// The fields that are still to be read.
pub struct Fields<'a> {
    map: &'a Map,
    left: std::slice::Iter<'a, Field<'a>>,
    line: usize,
    unit: Option<Unit>,
}

impl<'a> Fields<'a> {
    /// Takes the fields of a line after its word, if there are as many as the question has.
    ///
    /// # Errors
    /// A field is missing, or there are too many.
    pub fn new(
        question: &'static str,
        parts: &[Part],
        line: &'a Line<'a>,
        map: &'a Map,
    ) -> Result<Fields<'a>, Unread> {
        let fields = line.fields.get(1..).unwrap_or_default();
        if let Some(extra) = fields.get(parts.len()) {
            let most = parts.len();
            let fault = Fault::TooManyFields { question, most };
            return Err(Unread::Fault {
                line: extra.line,
                fault,
            });
        }
        let mut left_out = parts.iter().skip(fields.len());
        if let Some(missing) = left_out.find(|part| !part.optional) {
            let field = missing.holds;
            let line = fields.last().map_or(line.number, |field| field.line);
            let fault = Fault::MissingField { question, field };
            return Err(Unread::Fault { line, fault });
        }
        Ok(Fields {
            map,
            left: fields.iter(),
            line: line.number,
            unit: Some(Unit::default()),
        })
    }

    /// Reads lengths in a unit; without one none can be read.
    #[must_use]
    pub fn in_unit(mut self, unit: Option<Unit>) -> Fields<'a> {
        self.unit = unit;
        self
    }

    /// The next field; an empty one if it was left out.
    fn next(&mut self) -> &'a [Word<'a>] {
        match self.left.next() {
            Some(field) => {
                self.line = field.line;
                &field.words
            }
            None => &[],
        }
    }

    /// Reads a name that is defined.
    ///
    /// # Errors
    /// It is no name.
    pub fn new_name(&mut self) -> Result<Name, Unread> {
        let [word] = self.exactly("a name")?;
        name_of(&word)
    }

    /// Reads a shape: a name, or numbers after their floor, which is 0 if it is left out.
    ///
    /// # Errors
    /// It is neither.
    pub fn shape(&mut self) -> Result<Given, Unread> {
        match self.next() {
            [word] if !is_numeric(word.text) => self.named(word),
            words => list(words, Some(0), self.unit),
        }
    }

    /// Reads numbers after their floor, which is 0 if it is left out.
    ///
    /// # Errors
    /// They are no numbers.
    pub fn list(&mut self) -> Result<Given, Unread> {
        list(self.next(), Some(0), self.unit)
    }

    /// Reads two shapes.
    ///
    /// # Errors
    /// One of them is none.
    pub fn pair(&mut self) -> Result<Pair, Unread> {
        let a = self.shape()?;
        let b = self.shape()?;
        Ok(Pair { a, b })
    }

    /// Reads a shape, or an outline after a floor, as `@2 cart`. An outline alone is on floor 0.
    ///
    /// # Errors
    /// It is neither.
    pub fn shape_on_floor(&mut self) -> Result<Given, Unread> {
        let given = match self.next() {
            [sign, word] if sign.text.starts_with('@') && !is_numeric(word.text) => {
                self.outline_on(sign, word)?
            }
            [word] if !is_numeric(word.text) => self.named(word)?,
            words => list(words, Some(0), self.unit)?,
        };
        Ok(Given {
            floor: given.floor.or(Some(0)),
            ..given
        })
    }

    /// The outline of a name, on a floor.
    fn outline_on(&self, sign: &Word<'_>, word: &Word<'_>) -> Result<Given, Unread> {
        let given = self.named(word)?;
        if given.floor.is_some() {
            let found = word.text.to_string();
            return Err(Unread::at(word, Fault::NameAmongNumbers { found }));
        }
        Ok(Given {
            floor: Some(floor(sign)?),
            ..given
        })
    }

    /// Reads two obstacles and a cart.
    ///
    /// # Errors
    /// One of them is no shape.
    pub fn trio(&mut self) -> Result<Trio, Unread> {
        Ok(Trio {
            left: self.shape()?,
            right: self.shape()?,
            cart: self.shape()?,
        })
    }

    /// Reads the corners of an outline, which has no floor.
    ///
    /// # Errors
    /// They are no numbers, or there is a floor.
    pub fn outline(&mut self) -> Result<Given, Unread> {
        match self.next() {
            [word, ..] if word.text.starts_with('@') => {
                Err(Unread::at(word, Fault::FloorOfOutline))
            }
            words => list(words, None, self.unit),
        }
    }

    /// Reads a place: the two numbers of a point. Without a floor it is on that of the question.
    ///
    /// # Errors
    /// It is no point.
    pub fn place(&mut self) -> Result<Given, Unread> {
        let place = list(self.next(), None, self.unit)?;
        let found = place.numbers.len();
        let wanted = "a place: x and y";
        if found == 2 {
            return Ok(place);
        }
        Err(self.fault(Fault::WrongCount { wanted, found }))
    }

    /// Reads a direction.
    ///
    /// # Errors
    /// It is not two numbers.
    pub fn direction(&mut self) -> Result<[i32; 2], Unread> {
        let [u, v] = self.exactly("a direction: two numbers")?;
        Ok([number(&u)?, number(&v)?])
    }

    /// Reads an end of a drive, which is on the floor of the question.
    ///
    /// # Errors
    /// It is not two numbers.
    pub fn end(&mut self) -> Result<[i32; 2], Unread> {
        let [x, y] = self.exactly("a place: x and y")?;
        Ok([length(&x, self.unit)?, length(&y, self.unit)?])
    }

    /// Reads a position, counted from 0.
    ///
    /// # Errors
    /// It is no count.
    pub fn position(&mut self) -> Result<usize, Unread> {
        let [word] = self.exactly("a position: a number from 0")?;
        count(&word)
    }

    /// Reads a count that may be left out.
    ///
    /// # Errors
    /// It is no count.
    pub fn optional_count(&mut self, wanted: &'static str) -> Result<Option<usize>, Unread> {
        match self.left.len() {
            0 => Ok(None),
            _ => self
                .exactly(wanted)
                .and_then(|[word]| count(&word))
                .map(Some),
        }
    }

    /// Reads the name of a record, a number from 0 to 65,535.
    ///
    /// # Errors
    /// It is none.
    pub fn record_name(&mut self) -> Result<u16, Unread> {
        let wanted = "the name of a record: a number from 0 to 65535";
        let [word] = self.exactly(wanted)?;
        let name = number(&word).ok().and_then(|name| name.try_into().ok());
        name.ok_or_else(|| Unread::at(&word, Fault::not_a(wanted, word.text)))
    }

    /// Reads the name of a record to leave out, or nothing.
    ///
    /// # Errors
    /// It is neither.
    pub fn but(&mut self) -> Result<Option<u16>, Unread> {
        let next = self.left.as_slice().first();
        if next.is_none_or(|field| field.words.is_empty()) {
            self.next();
            return Ok(None);
        }
        self.record_name().map(Some)
    }

    /// Reads the bytes of a log: pairs of hexadecimal digits.
    ///
    /// # Errors
    /// There is something else.
    pub fn bytes(&mut self) -> Result<Vec<u8>, Unread> {
        let mut bytes = Vec::new();
        for word in self.next() {
            let pairs = word.text.as_bytes().chunks(2).map(byte);
            let read: Option<Vec<u8>> = pairs.collect();
            let wrong = || Unread::at(word, Fault::not_a("pairs of hexadecimal digits", word.text));
            bytes.extend(read.ok_or_else(wrong)?);
        }
        Ok(bytes)
    }

    /// Reads a reading of the tablet: `mm` or `e8`, and the bits of a double.
    ///
    /// # Errors
    /// It is none.
    pub fn reading(&mut self) -> Result<Reading, Unread> {
        let wanted = "a reading: mm or e8, then 0x and 16 hexadecimal digits";
        let [unit, bits] = self.exactly(wanted)?;
        let number =
            double(bits.text).ok_or_else(|| Unread::at(&bits, Fault::not_a(wanted, bits.text)))?;
        match unit.text {
            "mm" => Ok(Reading::Millimetres(number)),
            "e8" => Ok(Reading::Eighths(number)),
            other => Err(Unread::at(&unit, Fault::not_a("mm or e8", other))),
        }
    }

    /// Reads calls of a sum in parts, each two counts with a colon between them.
    ///
    /// # Errors
    /// One of them is none.
    pub fn calls(&mut self) -> Result<Vec<Call>, Unread> {
        self.next().iter().map(call).collect()
    }

    /// Reads one call: two counts.
    ///
    /// # Errors
    /// It is none.
    pub fn call(&mut self) -> Result<Call, Unread> {
        let [corners, room] =
            self.exactly("a call: how many corners, and how many numbers of room")?;
        Ok(Call {
            corners: count(&corners)?,
            room: count(&room)?,
        })
    }

    /// Reads a walk: two counts of edges that are passed, and 1 if it is over, else 0.
    ///
    /// # Errors
    /// It is none.
    pub fn walk(&mut self) -> Result<Walk, Unread> {
        let [first, second, over] = self.exactly("a walk: two counts of edges, and 0 or 1")?;
        let is_over = match number(&over)? {
            0 => false,
            1 => true,
            _ => return Err(Unread::at(&over, Fault::not_a("0 or 1", over.text))),
        };
        Ok(Walk::at(count(&first)?, count(&second)?, is_over))
    }

    /// Takes a field of exactly `N` words.
    fn exactly<const N: usize>(&mut self, wanted: &'static str) -> Result<[Word<'a>; N], Unread> {
        let words = self.next();
        words.try_into().map_err(|_| {
            let found = words.len();
            self.fault(Fault::WrongCount { wanted, found })
        })
    }

    /// The fault of the field that was taken last.
    fn fault(&self, fault: Fault) -> Unread {
        let line = self.line;
        Unread::Fault { line, fault }
    }

    /// The shape of a name.
    fn named(&self, word: &Word<'_>) -> Result<Given, Unread> {
        let name = name_of(word)?;
        let unknown = || {
            let (found, like) = (word.text.to_string(), self.map.like(word.text));
            Unread::at(word, Fault::UnknownName { found, like })
        };
        let item = self.map.get(&name).ok_or_else(unknown)?;
        match &item.entry {
            Entry::Shape { shape, .. } => Ok(shape.clone()),
            Entry::Removed => Err(Unread::Removed {
                line: word.line,
                name,
                at: item.place.clone(),
            }),
        }
    }
}

/// Reads a name.
///
/// # Errors
/// It is none.
pub fn name_of(word: &Word<'_>) -> Result<Name, Unread> {
    Name::read(word.text).map_err(|why| {
        let found = word.text.to_string();
        Unread::at(word, Fault::NotAName { found, why })
    })
}
