//! What came of a line, as one JSON object.
use crate::answer::{AboutOne, AboutTwo, Answer, Written};
use crate::given::{Given, Pair};
use crate::json::Json;
use crate::name::Name;
use crate::place::Place;
use crate::question::{Drive, Past};
use crate::refusal::{hexadecimal, reason};
use crate::report;
use crate::session::{Event, Outcome};
use crate::unit::Unit;
use cocklesway::{
    Across, Addition, Axis, Beyond, Contact, Excess, LeastBox, Line, Meeting, Nearest, Passage,
    Refusal, Relation, Tangents, Which, Width,
};

type Members = Vec<(&'static str, Json)>;

/// Returns the object of an event.
#[must_use]
pub fn object(event: &Event) -> Json {
    let mut members = place_of(&event.place);
    members.extend(
        event
            .name
            .as_ref()
            .map(|name| ("name", name.as_str().into())),
    );
    members.extend(outcome(&event.outcome));
    members.push(("sentence", report::sentence(event).into()));
    Json::Object(members)
}

/// The members of what came of a line.
fn outcome(outcome: &Outcome) -> Members {
    let list = |shapes: Vec<&Given>| Json::List(shapes.into_iter().map(shape_of).collect());
    let replaced = |earlier: &Option<Place>| earlier.as_ref().map(|at| ("replaces", place(at)));
    match outcome {
        Outcome::Unreadable(_) => vec![("unreadable", true.into())],
        Outcome::Unasked(question) => {
            vec![
                ("question", question.word().into()),
                ("asked", false.into()),
            ]
        }
        Outcome::Defined { shape, earlier } => {
            let shape = ("shape", shape_of(shape));
            [shape].into_iter().chain(replaced(earlier)).collect()
        }
        Outcome::Answered { answer, earlier } => {
            let members = of_answer(answer).into_iter();
            members.chain(replaced(earlier)).collect()
        }
        Outcome::Listed(shapes) => {
            vec![
                ("question", "shapes".into()),
                ("names", list(shapes.iter().collect())),
            ]
        }
        Outcome::Refused(refused) => vec![
            ("question", refused.question.word().into()),
            ("shapes", list(refused.question.shapes())),
            ("refused", refusal(refused.refusal, reason(refused))),
        ],
        Outcome::Removed { name, at } => vec![("not_asked", removed(name, at))],
        Outcome::NotWhole { found, unit } => not_whole(found, *unit),
        Outcome::Measured(unit) => vec![("unit", unit.to_string().into())],
    }
}

/// The members of a question and its answer.
fn of_answer(answer: &Answer) -> Members {
    let shapes = answer.shapes().into_iter().map(shape_of).collect();
    let mut members = vec![
        ("question", answer.word().into()),
        ("shapes", Json::List(shapes)),
    ];
    members.extend(answered(answer));
    members
}

/// The members of a length that is no whole number of millimetres.
fn not_whole(found: &str, unit: Unit) -> Members {
    let reason = report::not_whole(found, unit);
    let members = vec![("number", 18_u64.into()), ("reason", reason.into())];
    vec![("refused", Json::Object(members))]
}

/// A name whose definition was refused, and where.
fn removed(name: &Name, at: &Place) -> Json {
    Json::Object(vec![("name", name.as_str().into()), ("at", place(at))])
}

fn place_of(place: &Place) -> Members {
    vec![("file", (&*place.file).into()), ("line", place.line.into())]
}

fn place(place: &Place) -> Json {
    Json::Object(place_of(place))
}

/// Returns a shape with its name, its floor and its corners; a list that has an odd count of numbers has these instead.
#[must_use]
pub fn shape_of(shape: &Given) -> Json {
    let name = shape.name.as_ref().map(Name::as_str);
    let floor = shape.floor.map(i64::from);
    let list = if shape.numbers.len().is_multiple_of(2) {
        ("corners", shape.corners().into())
    } else {
        let numbers = shape
            .numbers
            .iter()
            .map(|&number| Json::Number(number.into()));
        ("numbers", Json::List(numbers.collect()))
    };
    Json::Object(vec![("name", name.into()), ("floor", floor.into()), list])
}

/// Returns the number of a refusal, what it carries, and its reason.
#[must_use]
pub fn refusal(refusal: Refusal, reason: String) -> Json {
    let mut members: Members = vec![("number", refusal.number().into())];
    let shape = refusal.shape().map(position_of);
    members.extend(shape.map(|shape| ("shape", shape.into())));
    match refusal {
        Refusal::Side { edge, corner, .. } => {
            members.extend([("edge", edge.into()), ("corner", corner.into())]);
        }
        Refusal::NotConvex { before, corner } => {
            members.extend([("before", before.into()), ("corner", corner.into())]);
        }
        Refusal::Damaged { place } => members.push(("place", place.into())),
        Refusal::NotFinite { axis } | Refusal::NotWhole { axis } | Refusal::FarReading { axis } => {
            members.push(("axis", if axis == Axis::X { "x" } else { "y" }.into()));
        }
        _ => {}
    }
    members.push(("reason", reason.into()));
    Json::Object(members)
}

/// The position of a shape, or of a place of a drive, among those of its question.
fn position_of(which: Which) -> usize {
    match which {
        Which::Second => 1,
        Which::Third => 2,
        Which::Fourth => 3,
        _ => 0,
    }
}

/// Returns the members of an answer.
#[must_use]
pub fn answered(answer: &Answer) -> Members {
    match answer {
        Answer::One(shape, about) => about_one(shape, about),
        Answer::Two(pair, about) => about_two(pair, about),
        Answer::Made(_, made) => {
            let record = made.record.map(|name| ("record", u64::from(name).into()));
            let shape = ("made", shape_of(&made.shape));
            [shape].into_iter().chain(record).collect()
        }
        Answer::Passage(_, found) => passage(*found),
        Answer::Corner(_, corner) => vec![("corner", (*corner).into())],
        Answer::Added(_, addition, log) => vec![
            ("finished", (*addition == Addition::Finished).into()),
            ("log", hexadecimal(log).into()),
        ],
        Answer::Packed(packing, addition, log) => vec![
            ("but", packing.but.map(u64::from).into()),
            ("finished", (*addition == Addition::Finished).into()),
            ("log", hexadecimal(log).into()),
        ],
        Answer::Nearest(around, found, near) => {
            let but = ("but", around.but.map(u64::from).into());
            let members = [but, ("record", u64::from(found.name).into())];
            let places = clearance([&around.shape, near], found.nearest, found.rounded());
            members.into_iter().chain(places).collect()
        }
        Answer::Gap(_, found, [one, other]) => {
            let names = found.names.map(|name| u64::from(name).into());
            let records = ("records", Json::List(names.to_vec()));
            let places = clearance([one, other], found.nearest, found.rounded());
            [records].into_iter().chain(places).collect()
        }
        Answer::Drive(past, found) => driven(past, *found),
        Answer::Contact(drive, found) => contact(drive, *found),
    }
}

fn driven(past: &Past, found: cocklesway::Drive) -> Members {
    let record = found
        .first
        .map(|(name, _)| ("record", u64::from(name).into()));
    let way = on_way(
        [past.from, past.to],
        found.first.map(|(_, meeting)| meeting),
    );
    way.into_iter().chain(record).collect()
}

fn contact(drive: &Drive, found: Contact) -> Members {
    on_way([drive.from, drive.to], found.meeting)
}

/// The ends of a way, and where on it something is met.
fn on_way([from, to]: [[i32; 2]; 2], meeting: Option<Meeting>) -> Members {
    let mut members = vec![
        ("from", from.into()),
        ("to", to.into()),
        ("meets", meeting.is_some().into()),
    ];
    members.extend(meeting.into_iter().flat_map(|meeting| {
        [
            ("numerator", meeting.numerator.into()),
            ("denominator", meeting.denominator.into()),
            ("safe", meeting.safe.into()),
        ]
    }));
    members
}

fn passage(found: Passage) -> Members {
    let mut members = vec![("passable", found.way.is_some().into())];
    members.extend(found.way.into_iter().flat_map(|way| {
        [
            ("direction", way.across.into()),
            ("low", way.low.into()),
            ("high", way.high.into()),
            ("rounded", way.width.into()),
        ]
    }));
    members
}

fn about_one(shape: &Given, about: &AboutOne) -> Members {
    match about {
        AboutOne::Judge(found) => vec![("count", found.count.into())],
        AboutOne::Furthest(towards, found) => vec![
            ("direction", (*towards).into()),
            ("first", shape.corner(found.first).0.into()),
            ("last", shape.corner(found.last).0.into()),
            ("value", found.value.into()),
        ],
        AboutOne::Length(found) => vec![
            ("squared", found.squared.into()),
            ("from", shape.corner(found.from).0.into()),
            ("to", shape.corner(found.to).0.into()),
        ],
        AboutOne::Width(found) => width(shape, *found),
        AboutOne::Box(found) => least_box(shape, *found),
        AboutOne::Area(found) => vec![("twice", found.twice.into())],
    }
}

fn width(shape: &Given, found: Width) -> Members {
    vec![
        ("corner", shape.corner(found.corner).0.into()),
        ("edge", edge(shape, found.edge)),
        ("turn", found.turn.into()),
        ("squared", found.squared.into()),
        ("rounded", found.rounded.into()),
    ]
}

fn least_box(shape: &Given, found: LeastBox) -> Members {
    vec![
        ("edge", edge(shape, found.edge)),
        ("height", found.height.into()),
        ("along", found.along.into()),
        ("squared", found.squared.into()),
    ]
}

fn about_two(pair: &Pair, about: &AboutTwo) -> Members {
    match about {
        AboutTwo::Relation(found) => vec![("relation", relation(found.relation).into())],
        AboutTwo::Inside(found) => vec![("inside", found.within.into())],
        AboutTwo::Offer(towards, found) => {
            vec![
                ("direction", (*towards).into()),
                ("accepted", found.accepted.into()),
            ]
        }
        AboutTwo::Find(found) => vec![("direction", found.direction.into())],
        AboutTwo::Clearance(found) => clearance([&pair.a, &pair.b], found.nearest, found.rounded()),
        AboutTwo::Greatest(found) => vec![
            ("squared", found.squared.into()),
            ("first", pair.a.corner(found.first).0.into()),
            ("second", pair.b.corner(found.second).0.into()),
        ],
        AboutTwo::Excess(found) => excess(pair, *found),
        AboutTwo::Tangents(found) => tangents(pair, *found),
        AboutTwo::Parts(written) => vec![("calls", Json::List(written.iter().map(call).collect()))],
        AboutTwo::Part(corners, walk) => {
            let counts = [walk.first(), walk.second(), usize::from(walk.is_over())];
            vec![
                ("corners", corners.as_slice().into()),
                ("walk", Json::List(counts.map(Json::from).to_vec())),
            ]
        }
    }
}

/// Returns the word for how two shapes are to each other.
#[must_use]
pub fn relation(found: Relation) -> &'static str {
    match found {
        Relation::Apart => "apart",
        Relation::Touching => "touching",
        Relation::Overlapping => "overlapping",
    }
}

/// Returns the members of how near two shapes are, and where.
#[must_use]
pub fn clearance([a, b]: [&Given; 2], nearest: Option<Nearest>, rounded: u64) -> Members {
    let mut members = vec![
        ("apart", nearest.is_some().into()),
        ("rounded", rounded.into()),
    ];
    match nearest {
        None => {}
        Some(Nearest::Corners {
            first,
            second,
            squared,
            ..
        }) => members.extend([
            ("first", a.corner(first).0.into()),
            ("second", b.corner(second).0.into()),
            ("squared", squared.into()),
        ]),
        Some(Nearest::CornerEdge(found)) => {
            members.extend(across(["first", "second"], a, b, found));
        }
        Some(Nearest::EdgeCorner(found)) => {
            members.extend(across(["second", "first"], b, a, found));
        }
    }
    members
}

fn excess(Pair { a, b }: &Pair, found: Excess) -> Members {
    let mut members = vec![
        ("inside", found.beyond.is_none().into()),
        ("up", found.up().into()),
    ];
    match found.beyond {
        None => {}
        Some(Beyond::Corners {
            corner,
            other,
            squared,
            ..
        }) => members.extend([
            ("first", a.corner(corner).0.into()),
            ("second", b.corner(other).0.into()),
            ("squared", squared.into()),
        ]),
        Some(Beyond::Edge {
            corner,
            edge: position,
            turn,
            squared,
            ..
        }) => members.extend([
            ("first", a.corner(corner).0.into()),
            ("second", edge(b, position)),
            ("turn", turn.into()),
            ("squared", squared.into()),
        ]),
    }
    members
}

/// A corner of the one shape and an edge of the other.
fn across(
    [of_corner, of_edge]: [&'static str; 2],
    one: &Given,
    other: &Given,
    found: Across,
) -> Members {
    vec![
        (of_corner, one.corner(found.corner).0.into()),
        (of_edge, edge(other, found.edge)),
        ("turn", found.turn.into()),
        ("squared", found.squared.into()),
    ]
}

fn edge(shape: &Given, position: usize) -> Json {
    let ends = shape.edge(position);
    Json::List(vec![ends.0.0.into(), ends.1.0.into()])
}

fn tangents(Pair { a, b }: &Pair, found: Tangents) -> Members {
    let line =
        |Line { from, to, .. }| Json::List(vec![a.corner(from).0.into(), b.corner(to).0.into()]);
    vec![
        ("left", line(found.left)),
        ("right", line(found.right)),
        ("crossing", line(found.crossing)),
        ("reverse", line(found.reverse)),
    ]
}

fn call(written: &Written) -> Json {
    match &written.corners {
        Ok(corners) => Json::Object(vec![("corners", corners.as_slice().into())]),
        Err(refused) => {
            let reason = crate::refusal::of_call(*refused, written.call);
            Json::Object(vec![("refused", refusal(*refused, reason))])
        }
    }
}
