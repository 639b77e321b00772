//! Lines in their order: definitions kept by name, questions asked, and what came of each.
//!
//! Every line of a file gives exactly one event. A definition that is refused or cannot be read removes its name, so
//! that no later question is answered with a shape from before it.
use crate::answer::{Answer, Made, Refused, ask, made};
use crate::fault::Fault;
use crate::fields::{Fields, Part, Unread, name_of};
use crate::given::Given;
use crate::lines::{Line, lines, text_of};
use crate::map::{Entry, Map, Origin};
use crate::name::{Name, most_like};
use crate::place::Place;
use crate::question::{Making, OfOne, Question};
use crate::source::Source;
use crate::table;
use crate::unit::Unit;
use crate::words::is_numeric;
use std::collections::{HashMap, HashSet};
use std::sync::Arc;

/// What came of a line.
#[derive(Clone, Debug, PartialEq)]
pub struct Event {
    /// The line.
    pub place: Place,
    /// The name that it defines.
    pub name: Option<Name>,
    /// What came of it.
    pub outcome: Outcome,
}

/// What came of a line.
#[derive(Clone, Debug, PartialEq)]
pub enum Outcome {
    /// A shape or an outline was written down and accepted. It may take the place of an earlier one of this file.
    Defined {
        /// The shape.
        shape: Given,
        /// Where the earlier one was.
        earlier: Option<Place>,
    },
    /// A question was answered. A shape that it made may have a name, and take the place of an earlier one.
    Answered {
        /// The answer.
        answer: Answer,
        /// Where the earlier shape of the name was.
        earlier: Option<Place>,
    },
    /// A question was read and, as wished, not asked.
    Unasked(Question),
    /// All names are asked for.
    Listed(Vec<Given>),
    /// The library refused.
    Refused(Refused),
    /// A shape that the line names was refused before.
    Removed {
        /// The name.
        name: Name,
        /// Where it was refused.
        at: Place,
    },
    /// A length is no whole number of millimetres: refusal 18.
    NotWhole {
        /// The word.
        found: String,
        /// Its unit.
        unit: Unit,
    },
    /// Lengths are in this unit from here on.
    Measured(Unit),
    /// The line cannot be read.
    Unreadable(Fault),
}

impl Event {
    /// Returns whether a shape takes the place of an earlier one of its name.
    #[must_use]
    pub fn replaces(&self) -> bool {
        match &self.outcome {
            Outcome::Defined { earlier, .. } | Outcome::Answered { earlier, .. } => {
                earlier.is_some()
            }
            _ => false,
        }
    }
}

/// The shapes so far.
#[derive(Clone, Debug)]
pub struct Session {
    map: Map,
    only_definitions: bool,
    /// The unit of lengths. It is not known after a line that should say it and cannot be read.
    unit: Option<Unit>,
}

impl Default for Session {
    fn default() -> Session {
        Session {
            map: Map::default(),
            only_definitions: false,
            unit: Some(Unit::default()),
        }
    }
}

/// What a line is.
enum Said {
    Shape(Name, Given),
    Ring(Name, Given),
    Unit(Unit),
    Question(Option<Name>, Question),
    Shapes,
}

impl Session {
    /// Begins without shapes. All lines are asked.
    #[must_use]
    pub fn new() -> Session {
        Session::default()
    }

    /// Begins without shapes. Questions are read and not asked, but for those that define a name.
    #[must_use]
    pub fn of_definitions() -> Session {
        Session {
            only_definitions: true,
            ..Session::default()
        }
    }

    /// Returns the shapes by their names.
    #[must_use]
    pub fn map(&self) -> &Map {
        &self.map
    }

    /// Reads the question of a line by the shapes so far, and does not ask it.
    ///
    /// # Errors
    /// It cannot be read, or it is a definition.
    pub fn question_of(&self, line: &Line<'_>) -> Result<Question, Unread> {
        if let Some((line, fault)) = line.fault.clone() {
            return Err(Unread::Fault { line, fault });
        }
        match word_of(line)? {
            (word, false) if table::find(word).is_some() => match self.question(word, line)? {
                Said::Question(_, question) => Ok(question),
                _ => Err(unknown(line, word)),
            },
            (word, _) => Err(unknown(line, word)),
        }
    }

    /// Takes all lines of a file, and hands out what came of each.
    ///
    /// # Errors
    /// Those of the receiver.
    pub fn read<E>(
        &mut self,
        source: &Source,
        mut receive: impl FnMut(Event) -> Result<(), E>,
    ) -> Result<(), E> {
        let text = text_of(&source.bytes);
        let lines = lines(&source.bytes, &text);
        let mut before = None;
        self.unit = Some(Unit::default());
        for (at, line) in lines.iter().enumerate() {
            receive(self.line(&source.name, before, line, lines.get(at + 1)))?;
            before = if is_left_over(line) {
                before
            } else {
                Some(line)
            };
        }
        self.unit = Some(Unit::default());
        Ok(())
    }

    /// Takes a line. Its neighbours show whether numbers are left over.
    fn line(
        &mut self,
        file: &Arc<str>,
        before: Option<&Line<'_>>,
        line: &Line<'_>,
        next: Option<&Line<'_>>,
    ) -> Event {
        let place = |line| Place {
            file: file.clone(),
            line,
        };
        let name = target(line);
        let said = self.said(file, before, line).and_then(|said| match next {
            Some(next) if is_left_over(next) => Err(Unread::Fault {
                line: line.number,
                fault: Fault::NumbersAfter { line: next.number },
            }),
            _ => Ok(said),
        });
        let (at, outcome) = match said {
            Ok(said) => (line.number, self.done(&place(line.number), said)),
            Err(unread) => not_read(unread),
        };
        if is_unit(line) {
            self.unit = match outcome {
                Outcome::Measured(unit) => Some(unit),
                _ => None,
            };
        }
        let place = place(at);
        self.remove_if_failed(&place, name.as_ref(), &outcome);
        Event {
            place,
            name,
            outcome,
        }
    }

    /// Reads a line.
    fn said(
        &self,
        file: &Arc<str>,
        before: Option<&Line<'_>>,
        line: &Line<'_>,
    ) -> Result<Said, Unread> {
        if let Some((line, fault)) = line.fault.clone() {
            return Err(Unread::Fault { line, fault });
        }
        if is_left_over(line) {
            let place = |line| Place {
                file: file.clone(),
                line,
            };
            let before = before.map(|before| (place(before.number), target(before)));
            return Err(Unread::Fault {
                line: line.number,
                fault: Fault::LeftOver { before },
            });
        }
        self.whole(line)
    }

    /// Reads a line that begins with a word.
    fn whole(&self, line: &Line<'_>) -> Result<Said, Unread> {
        if is_unit(line) {
            return unit_of(line).map(Said::Unit);
        }
        match word_of(line)? {
            ("shape", false) => {
                let mut fields = self.fields("shape", table::SHAPE, line)?;
                let name = fields.new_name()?;
                Ok(Said::Shape(name, fields.list()?))
            }
            ("outline", false) => {
                let mut fields = self.fields("outline", table::OUTLINE, line)?;
                let name = fields.new_name()?;
                Ok(Said::Shape(name, fields.outline()?))
            }
            ("ring", false) if is_ring(line) => {
                let mut fields = self.fields("ring", table::SHAPE, line)?;
                let name = fields.new_name()?;
                Ok(Said::Ring(name, fields.list()?))
            }
            ("shapes", false) => self.fields("shapes", &[], line).map(|_| Said::Shapes),
            (word, _) => self.question(word, line),
        }
    }

    /// The fields of a line, with lengths in the unit at hand.
    fn fields<'a>(
        &'a self,
        word: &'static str,
        parts: &[Part],
        line: &'a Line<'a>,
    ) -> Result<Fields<'a>, Unread> {
        Ok(Fields::new(word, parts, line, &self.map)?.in_unit(self.unit))
    }

    /// Reads a question, with a name or without.
    fn question(&self, word: &str, line: &Line<'_>) -> Result<Said, Unread> {
        let row = table::find(word).ok_or_else(|| unknown(line, word))?;
        let name = match line.words(0) {
            [name, sign, ..] if sign.text == "=" => Some(name_of(name)?),
            _ => None,
        };
        let mut fields = self.fields(row.word, row.parts, line)?;
        let question = (row.read)(&mut fields)?;
        if name.is_some() && !matches!(question, Question::Make(..)) {
            let question = row.word;
            return Err(Unread::Fault {
                line: line.number,
                fault: Fault::NoShape { question },
            });
        }
        Ok(Said::Question(name, question))
    }

    /// Does what a line says.
    fn done(&mut self, place: &Place, said: Said) -> Outcome {
        match said {
            Said::Shapes => {
                Outcome::Listed(self.map.shapes().map(|(shape, _)| shape.clone()).collect())
            }
            Said::Shape(name, shape) => self.defined(place, name, shape),
            Said::Ring(name, points) => {
                let named = Given {
                    name: Some(name.clone()),
                    ..points
                };
                match made(Making::Ring(named)) {
                    Ok(shape) => self.defined(place, name, shape),
                    Err(refused) => Outcome::Refused(refused),
                }
            }
            Said::Unit(unit) => Outcome::Measured(unit),
            Said::Question(None, question) if self.only_definitions => Outcome::Unasked(question),
            Said::Question(name, question) => self.asked(place, name, question),
        }
    }

    /// Keeps a shape under its name if the library accepts it.
    fn defined(&mut self, place: &Place, name: Name, shape: Given) -> Outcome {
        let shape = Given {
            name: Some(name),
            ..shape
        };
        match cocklesway::judge(shape.alone()) {
            Ok(_) => {
                let earlier = self.keep(place, &shape, Origin::Written);
                Outcome::Defined { shape, earlier }
            }
            Err(refusal) => {
                Outcome::Refused(Refused::new(Question::One(shape, OfOne::Judge), refusal))
            }
        }
    }

    /// Asks a question; a shape that it makes is kept under its name.
    fn asked(&mut self, place: &Place, name: Option<Name>, question: Question) -> Outcome {
        match ask(question) {
            Ok(Answer::Made(making, Made { shape, record })) => {
                let shape = Given { name, ..shape };
                let earlier = self.keep(place, &shape, Origin::Made(making.clone()));
                let answer = Answer::Made(making, Made { shape, record });
                Outcome::Answered { answer, earlier }
            }
            Ok(answer) => Outcome::Answered {
                answer,
                earlier: None,
            },
            Err(refused) => Outcome::Refused(refused),
        }
    }

    /// Keeps a shape under its name, and returns where an earlier shape of the name was.
    fn keep(&mut self, place: &Place, shape: &Given, origin: Origin) -> Option<Place> {
        let name = shape.name.clone()?;
        let entry = Entry::Shape {
            shape: shape.clone(),
            origin,
        };
        let earlier = self.map.set(name, place.clone(), entry)?;
        matches!(earlier.entry, Entry::Shape { .. }).then_some(earlier.place)
    }

    /// Removes a name whose definition failed.
    fn remove_if_failed(&mut self, place: &Place, name: Option<&Name>, outcome: &Outcome) {
        let failed = matches!(
            outcome,
            Outcome::Refused(_)
                | Outcome::Removed { .. }
                | Outcome::NotWhole { .. }
                | Outcome::Unreadable(_)
        );
        if let Some(name) = name.filter(|_| failed) {
            self.map.set(name.clone(), place.clone(), Entry::Removed);
        }
    }
}

/// Returns the names that more than one file defines: where it is defined again, and what to say. An old map and a new
/// one would be mixed otherwise, and shapes that only the old one has would stay.
#[must_use]
pub fn defined_twice(sources: &[Source]) -> Vec<(Place, Fault)> {
    let mut first: HashMap<Name, Place> = HashMap::new();
    let mut again = Vec::new();
    for source in sources {
        let own = defined_in(source);
        for (name, place) in &own {
            if let Some(first) = first.get(name) {
                let (name, first) = (name.clone(), first.clone());
                again.push((place.clone(), Fault::TwoFiles { name, first }));
            }
        }
        first.extend(own);
    }
    again
}

/// The names that a file defines, and where each is defined first.
fn defined_in(source: &Source) -> Vec<(Name, Place)> {
    let text = text_of(&source.bytes);
    let mut seen = HashSet::new();
    let lines = lines(&source.bytes, &text);
    let targets = lines.iter().filter_map(|line| {
        let file = source.name.clone();
        let place = Place {
            file,
            line: line.number,
        };
        target(line).map(|name| (name, place))
    });
    targets
        .filter(|(name, _)| seen.insert(name.clone()))
        .collect()
}

/// The name that a line defines, or would define if it could be read.
fn target(line: &Line<'_>) -> Option<Name> {
    let word = match line.words(0) {
        [name, sign, ..] if sign.text == "=" => Some(name),
        [word] if word.text == "shape" || word.text == "outline" => line.words(1).first(),
        [word] if word.text == "ring" && is_ring(line) => line.words(1).first(),
        _ => None,
    };
    word.and_then(|word| Name::read(word.text).ok())
}

/// What came of a line that is not asked, and where.
fn not_read(unread: Unread) -> (usize, Outcome) {
    match unread {
        Unread::Fault { line, fault } => (line, Outcome::Unreadable(fault)),
        Unread::Removed { line, name, at } => (line, Outcome::Removed { name, at }),
        Unread::NotWhole { line, found, unit } => (line, Outcome::NotWhole { found, unit }),
    }
}

/// Whether a line that begins with `ring` defines a name: a name, and then points. Else it is the question, whose
/// second field is a count.
fn is_ring(line: &Line<'_>) -> bool {
    let is_name = matches!(line.words(1), [word] if !is_numeric(word.text));
    let is_count = matches!(line.words(2), [word] if !word.text.starts_with('@'));
    is_name && line.fields.len() > 2 && !is_count
}

/// Whether a line says a unit, or should.
fn is_unit(line: &Line<'_>) -> bool {
    match line.words(0) {
        [_, sign, ..] if sign.text == "=" => false,
        [word, ..] => word.text == "unit",
        [] => false,
    }
}

/// The unit that a line says: `unit m` or `unit | m`.
fn unit_of(line: &Line<'_>) -> Result<Unit, Unread> {
    let words: Vec<&str> = line
        .fields
        .iter()
        .flat_map(|field| field.words.iter().map(|word| word.text))
        .collect();
    let read = match words.as_slice() {
        [_, unit] => Unit::read(unit),
        _ => None,
    };
    let found = words.get(1..).unwrap_or_default().join(" ");
    read.ok_or(Unread::Fault {
        line: line.number,
        fault: Fault::NotAUnit { found },
    })
}

/// Whether a line has only numbers where its word should be.
fn is_left_over(line: &Line<'_>) -> bool {
    let words = line.words(0);
    let numbers = words.iter().all(|word| is_numeric(word.text));
    numbers && !words.is_empty()
}

/// The word of a line, and whether a name is before it.
fn word_of<'a>(line: &'a Line<'_>) -> Result<(&'a str, bool), Unread> {
    match line.words(0) {
        [word] => Ok((word.text, false)),
        [_, sign, word] if sign.text == "=" => Ok((word.text, true)),
        words => {
            let texts: Vec<&str> = words.iter().map(|word| word.text).collect();
            Err(unknown(line, &texts.join(" ")))
        }
    }
}

fn unknown(line: &Line<'_>, word: &str) -> Unread {
    Unread::Fault {
        line: line.number,
        fault: Fault::UnknownWord {
            found: word.to_string(),
            like: most_like(word, table::words()),
        },
    }
}
