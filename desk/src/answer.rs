//! Questions asked of the library, and what it answers.
use crate::given::{Given, Pair, Trio};
use crate::question::{
    Around, Call, Drive, Making, Narrowest, OfOne, OfTwo, Packing, Past, Question, Record,
};
use cocklesway::{
    Addition, Area, Book, Clearance, Contact, Corners, Excess, Furthest, Gap, Greatest, Inside,
    LeastBox, Length, Neighbour, Offer, Passage, Reading, Refusal, Relation, Separator, Standing,
    Tangents, Walk, Width,
};

/// A question with its answer.
#[derive(Clone, Debug, PartialEq)]
pub enum Answer {
    /// About one shape.
    One(Given, AboutOne),
    /// About two shapes.
    Two(Pair, AboutTwo),
    /// The shape that was made.
    Made(Making, Made),
    /// Whether a cart may pass between two obstacles, and where.
    Passage(Trio, Passage),
    /// The corner of two readings.
    Corner([Reading; 2], [i32; 2]),
    /// Whether an addition was finished, and the log afterwards.
    Added(Record, Addition, Vec<u8>),
    /// Whether the stores of a packing sufficed, and the bytes afterwards.
    Packed(Packing, Addition, Vec<u8>),
    /// Which shape of a log is nearest, and that shape.
    Nearest(Around, Neighbour, Given),
    /// Which two shapes of a log have the narrowest gap, and both grown by the cart.
    Gap(Narrowest, Gap, [Given; 2]),
    /// Which shape of a log a cart first meets, and where.
    Drive(Past, cocklesway::Drive),
    /// Where a cart first meets an obstacle.
    Contact(Drive, Contact),
}

/// A shape that was made.
#[derive(Clone, Debug, PartialEq, Eq)]
pub struct Made {
    /// The shape.
    pub shape: Given,
    /// The name of its record, if a position of a log was asked for.
    pub record: Option<u16>,
}

/// What is answered about one shape.
#[derive(Clone, Debug, PartialEq)]
pub enum AboutOne {
    /// It is a shape.
    Judge(Corners),
    /// The furthest corners in a direction.
    Furthest([i32; 2], Furthest),
    /// How long it is.
    Length(Length),
    /// How wide it is.
    Width(Width),
    /// The least box about it.
    Box(LeastBox),
    /// How large it is.
    Area(Area),
}

/// What is answered about two shapes.
#[derive(Clone, Debug, PartialEq)]
pub enum AboutTwo {
    /// How they relate to each other.
    Relation(Standing),
    /// Whether the first is inside the second.
    Inside(Inside),
    /// Whether the direction is accepted.
    Offer([i32; 2], Offer),
    /// A direction that is accepted.
    Find(Separator),
    /// Where they are nearest.
    Clearance(Clearance),
    /// Where they are furthest apart.
    Greatest(Greatest),
    /// How far the first reaches beyond the second.
    Excess(Excess),
    /// The lines that just touch both.
    Tangents(Tangents),
    /// What each call of a sum in parts wrote.
    Parts(Vec<Written>),
    /// What a call wrote, and the walk for the next.
    Part(Vec<[i32; 2]>, Walk),
}

/// What a call of a sum in parts wrote, or its refusal, and the call.
#[derive(Clone, Debug, PartialEq, Eq)]
pub struct Written {
    /// The call.
    pub call: Call,
    /// The corners, or the refusal.
    pub corners: Result<Vec<[i32; 2]>, Refusal>,
}

/// A question that was refused.
#[derive(Clone, Debug, PartialEq)]
pub struct Refused {
    /// The question.
    pub question: Box<Question>,
    /// The refusal.
    pub refusal: Refusal,
}

impl Refused {
    /// A question with its refusal.
    #[must_use]
    pub fn new(question: Question, refusal: Refusal) -> Refused {
        let question = Box::new(question);
        Refused { question, refusal }
    }
}

/// Asks the library.
///
/// # Errors
/// The question, with its refusal.
pub fn ask(question: Question) -> Result<Answer, Refused> {
    answered(&question).map_err(|refusal| Refused::new(question, refusal))
}

/// Asks for the shape that a question makes.
///
/// # Errors
/// The question, with its refusal.
pub fn made(making: Making) -> Result<Given, Refused> {
    let shape = shape_of(&making, None);
    shape.map_err(|refusal| Refused::new(Question::Make(making, None), refusal))
}

/// Asks how two shapes relate to each other.
///
/// # Errors
/// The question, with its refusal.
pub fn relation(pair: &Pair) -> Result<Relation, Refused> {
    let (a, b) = pair.lent();
    let found = cocklesway::relation(a, b).map(|standing| standing.relation);
    found.map_err(|refusal| Refused::new(Question::Two(pair.clone(), OfTwo::Relation), refusal))
}

/// Asks how near two shapes are.
///
/// # Errors
/// The question, with its refusal.
pub fn clearance(pair: &Pair) -> Result<Clearance, Refused> {
    let (a, b) = pair.lent();
    let found = cocklesway::clearance(a, b);
    found.map_err(|refusal| Refused::new(Question::Two(pair.clone(), OfTwo::Clearance), refusal))
}

/// Asks for the lines that just touch two shapes.
///
/// # Errors
/// The question, with its refusal.
pub fn tangents(pair: &Pair) -> Result<Tangents, Refused> {
    let (a, b) = pair.lent();
    let found = cocklesway::tangents(a, b);
    found.map_err(|refusal| Refused::new(Question::Two(pair.clone(), OfTwo::Tangents), refusal))
}

fn answered(question: &Question) -> Result<Answer, Refusal> {
    Ok(match question {
        Question::One(shape, asked) => Answer::One(shape.clone(), about_one(shape, *asked)?),
        Question::Two(pair, asked) => Answer::Two(pair.clone(), about_two(pair, asked)?),
        Question::Make(making, room) => Answer::Made(making.clone(), made_of(making, *room)?),
        Question::Passage(trio) => {
            let [left, right, cart] = trio.lent();
            Answer::Passage(trio.clone(), cocklesway::passage(left, right, cart)?)
        }
        Question::Tablet([x, y]) => Answer::Corner([*x, *y], cocklesway::tablet(*x, *y)?),
        Question::Add(record) => added(record)?,
        Question::Pack(packing) => packed(packing)?,
        Question::Nearest(around) => nearest(around)?,
        Question::Gap(asked) => gap(asked)?,
        Question::Drive(past) => {
            let cart = past.cart.alone();
            let found = cocklesway::log_contact(&past.log, cart, past.from, past.to)?;
            Answer::Drive(past.clone(), found)
        }
        Question::Contact(drive) => {
            let (obstacle, cart) = drive.pair.lent();
            let found = cocklesway::contact(obstacle, cart, drive.from, drive.to)?;
            Answer::Contact(drive.clone(), found)
        }
    })
}

fn about_one(shape: &Given, asked: OfOne) -> Result<AboutOne, Refusal> {
    let shape = shape.alone();
    Ok(match asked {
        OfOne::Judge => AboutOne::Judge(cocklesway::judge(shape)?),
        OfOne::Furthest(towards) => {
            AboutOne::Furthest(towards, cocklesway::furthest(shape, towards)?)
        }
        OfOne::Length => AboutOne::Length(cocklesway::length(shape)?),
        OfOne::Width => AboutOne::Width(cocklesway::width(shape)?),
        OfOne::Box => AboutOne::Box(cocklesway::least_box(shape)?),
        OfOne::Area => AboutOne::Area(cocklesway::area(shape)?),
    })
}

fn about_two(pair: &Pair, asked: &OfTwo) -> Result<AboutTwo, Refusal> {
    let (a, b) = pair.lent();
    Ok(match asked {
        OfTwo::Relation => AboutTwo::Relation(cocklesway::relation(a, b)?),
        OfTwo::Inside => AboutTwo::Inside(cocklesway::inside(a, b)?),
        OfTwo::Offer(towards) => AboutTwo::Offer(*towards, cocklesway::offer(a, b, *towards)?),
        OfTwo::Find => AboutTwo::Find(cocklesway::find(a, b)?),
        OfTwo::Clearance => AboutTwo::Clearance(cocklesway::clearance(a, b)?),
        OfTwo::Greatest => AboutTwo::Greatest(cocklesway::greatest(a, b)?),
        OfTwo::Excess => AboutTwo::Excess(cocklesway::excess(a, b)?),
        OfTwo::Tangents => AboutTwo::Tangents(cocklesway::tangents(a, b)?),
        OfTwo::Parts(calls) => AboutTwo::Parts(parts(pair, calls)?),
        OfTwo::Part(walk, call) => {
            let mut out = output(Some(call.room));
            let part = walk.part(a, b, call.corners, &mut out)?;
            AboutTwo::Part(part.corners.to_vec(), part.walk)
        }
    })
}

/// Returns the shape that a question makes, without a name. `room` is the output's size in numbers; without it every
/// answer has room.
///
/// # Errors
/// The library's refusal.
pub fn shape_of(making: &Making, room: Option<usize>) -> Result<Given, Refusal> {
    made_of(making, room).map(|made| made.shape)
}

/// The same, with the name of its record.
fn made_of(making: &Making, room: Option<usize>) -> Result<Made, Refusal> {
    let mut out = output(room);
    let mut record = None;
    let shape = match making {
        Making::Mirror(shape) => cocklesway::mirror(shape.alone(), &mut out)?,
        Making::Sweep(points) => cocklesway::sweep(points.alone(), &mut out)?,
        Making::Ring(points) => cocklesway::ring(points.alone(), &mut out)?,
        Making::Read { log, name } => cocklesway::log_read(log, *name, &mut out)?,
        Making::Entry { log, position } => {
            let (name, shape) = cocklesway::log_entry(log, *position, &mut out)?;
            record = Some(name);
            shape
        }
        Making::Merge(pair) => {
            let (a, b) = pair.lent();
            cocklesway::merge(a, b, &mut out)?
        }
        Making::Grow(pair) => {
            let (a, b) = pair.lent();
            cocklesway::grow(a, b, &mut out)?
        }
        // A shape plus a point is the shape moved by the vector to the point.
        Making::Sum(pair) | Making::At(pair) => {
            let (a, b) = pair.lent();
            cocklesway::sum(a, b, &mut out)?
        }
    };
    let is_own = matches!(making, Making::Read { .. } | Making::Entry { .. });
    let own = is_own.then_some(shape.floor);
    let floor = own.and_then(|floor| floor.try_into().ok());
    let shape = Given {
        name: None,
        numbers: shape.corners.as_flattened().into(),
        floor: floor.or(making.floor()),
    };
    Ok(Made { shape, record })
}

/// Returns an output for `room` numbers; without it for every answer.
fn output(room: Option<usize>) -> Vec<[i32; 2]> {
    let most = cocklesway::limits().corners;
    let corners = room.map_or(most, |numbers| (numbers / 2).min(most));
    vec![[0; 2]; corners]
}

/// The calls one after the other, each with the walk that was handed back last.
fn parts(pair: &Pair, calls: &[Call]) -> Result<Vec<Written>, Refusal> {
    let (a, b) = pair.lent();
    let mut walk = Walk::begin(a, b)?;
    let written = calls.iter().map(|&call| {
        let mut out = output(Some(call.room));
        let part = walk.part(a, b, call.corners, &mut out);
        walk = part.map_or(walk, |part| part.walk);
        let corners = part.map(|part| part.corners.to_vec());
        Written { call, corners }
    });
    Ok(written.collect())
}

fn added(record: &Record) -> Result<Answer, Refusal> {
    let mut log = record.log.clone();
    let allowed = record.stores.unwrap_or(usize::MAX);
    let addition = Book::new(&mut log).add(record.name, record.shape.alone(), allowed)?;
    Ok(Answer::Added(record.clone(), addition, log))
}

fn packed(packing: &Packing) -> Result<Answer, Refusal> {
    let mut new = packing.new.clone();
    let allowed = packing.stores.unwrap_or(usize::MAX);
    let addition = cocklesway::log_pack(&packing.old, &mut new, packing.but, allowed)?;
    Ok(Answer::Packed(packing.clone(), addition, new))
}

fn nearest(around: &Around) -> Result<Answer, Refusal> {
    let found = cocklesway::log_nearest(&around.log, around.shape.alone(), around.but)?;
    let near = latest(&around.log, found.name)?;
    Ok(Answer::Nearest(around.clone(), found, near))
}

/// The answer's positions are those of the grown shapes, so these are made as well.
fn gap(asked: &Narrowest) -> Result<Answer, Refusal> {
    let found = cocklesway::log_gap(&asked.log, asked.cart.alone())?;
    let grown = |name| {
        let (a, b) = (latest(&asked.log, name)?, asked.cart.clone());
        shape_of(&Making::Grow(Pair { a, b }), None)
    };
    let [one, other] = found.names.map(grown);
    Ok(Answer::Gap(asked.clone(), found, [one?, other?]))
}

/// The latest shape of a name in a log.
fn latest(log: &[u8], name: u16) -> Result<Given, Refusal> {
    let log = log.to_vec();
    shape_of(&Making::Read { log, name }, None)
}

impl Answer {
    /// Returns the word of its question.
    #[must_use]
    pub fn word(&self) -> &'static str {
        match self {
            Answer::One(_, about) => about.word(),
            Answer::Two(_, about) => about.word(),
            Answer::Made(making, _) => making.word(),
            Answer::Passage(..) => "passage",
            Answer::Corner(..) => "tablet",
            Answer::Added(..) => "bookadd",
            Answer::Packed(..) => "pack",
            Answer::Nearest(..) => "nearest",
            Answer::Gap(..) => "gap",
            Answer::Drive(..) => "drive",
            Answer::Contact(..) => "contact",
        }
    }

    /// Returns the shapes that were asked about.
    #[must_use]
    pub fn shapes(&self) -> Vec<&Given> {
        match self {
            Answer::One(shape, _) => vec![shape],
            Answer::Two(pair, _) | Answer::Contact(Drive { pair, .. }, _) => {
                vec![&pair.a, &pair.b]
            }
            Answer::Made(making, _) => making.shapes(),
            Answer::Passage(trio, _) => trio.shapes().to_vec(),
            Answer::Added(record, ..) => vec![&record.shape],
            Answer::Nearest(around, ..) => vec![&around.shape],
            Answer::Gap(asked, ..) => vec![&asked.cart],
            Answer::Drive(past, _) => vec![&past.cart],
            Answer::Corner(..) | Answer::Packed(..) => Vec::new(),
        }
    }
}

impl AboutOne {
    fn word(&self) -> &'static str {
        match self {
            AboutOne::Judge(_) => "judge",
            AboutOne::Furthest(..) => "furthest",
            AboutOne::Length(_) => "length",
            AboutOne::Width(_) => "width",
            AboutOne::Box(_) => "box",
            AboutOne::Area(_) => "area",
        }
    }
}

impl AboutTwo {
    fn word(&self) -> &'static str {
        match self {
            AboutTwo::Relation(_) => "relation",
            AboutTwo::Inside(_) => "inside",
            AboutTwo::Offer(..) => "offer",
            AboutTwo::Find(_) => "find",
            AboutTwo::Clearance(_) => "clearance",
            AboutTwo::Greatest(_) => "greatest",
            AboutTwo::Excess(_) => "excess",
            AboutTwo::Tangents(_) => "tangents",
            AboutTwo::Parts(_) => "parts",
            AboutTwo::Part(..) => "part",
        }
    }
}
