//! Answers in plain words, made from the typed answer: shapes by their names, corners by their coordinates.
use crate::answer::{AboutOne, AboutTwo, Answer, Made, Written};
use crate::called::{Called, between};
use crate::distance::Distance;
use crate::extent::Extent;
use crate::given::{Corner, Edge, Given, Pair, Trio};
use crate::question::{Drive, Making, Packing, Record};
use crate::refusal;
use crate::whole_floor::{first_met, gap, neighbour};
use cocklesway::{
    Addition, Beyond, Clearance, Contact, Excess, Furthest, Greatest, LeastBox, Line, Meeting,
    Offer, Passage, Reading, Relation, Separator, Tangents, Walk, Width,
};

/// Returns the sentence of an answer.
#[must_use]
pub fn sentence(answer: &Answer) -> String {
    match answer {
        Answer::One(shape, about) => about_one(shape, about),
        Answer::Two(pair, about) => about_two(pair, about),
        Answer::Made(making, found) => made(making, found),
        Answer::Passage(trio, found) => passage(trio, *found),
        Answer::Corner(readings, corner) => tablet(*readings, *corner),
        Answer::Added(record, addition, log) => added(record, *addition, log),
        Answer::Packed(packing, addition, log) => packed(packing, *addition, log),
        Answer::Nearest(around, found, near) => neighbour(around, *found, near),
        Answer::Gap(asked, found, grown) => gap(asked, *found, grown),
        Answer::Drive(past, found) => first_met(past, *found),
        Answer::Contact(drive, found) => contact(drive, *found),
    }
}

fn about_one(shape: &Given, about: &AboutOne) -> String {
    match about {
        AboutOne::Judge(_) => judge(shape),
        AboutOne::Furthest(towards, found) => furthest(shape, *towards, *found),
        AboutOne::Length(found) => length(shape, found.squared, [found.from, found.to]),
        AboutOne::Width(found) => width(shape, *found),
        AboutOne::Box(found) => least_box(shape, *found),
        AboutOne::Area(found) => area(shape, found.twice),
    }
}

fn about_two(pair: &Pair, about: &AboutTwo) -> String {
    match about {
        AboutTwo::Relation(found) => relation(pair, found.relation),
        AboutTwo::Inside(found) => inside(pair, found.within),
        AboutTwo::Offer(towards, found) => offer(pair, *towards, *found),
        AboutTwo::Find(found) => find(pair, *found),
        AboutTwo::Clearance(found) => clearance(pair, *found),
        AboutTwo::Greatest(found) => greatest(pair, *found),
        AboutTwo::Excess(found) => excess(pair, *found),
        AboutTwo::Tangents(found) => tangents(pair, *found),
        AboutTwo::Parts(written) => parts(pair, written),
        AboutTwo::Part(corners, walk) => part(pair, corners, *walk),
    }
}

/// Returns what a list of corners is: a point, a segment or a shape, with its corners.
#[must_use]
pub fn described(shape: &Given) -> String {
    let corners = corners(shape.corners());
    match shape.corners() {
        [_] => format!("a point{} at {corners}", floor(shape)),
        [_, _] => format!("a segment{} with the ends {corners}", floor(shape)),
        all => format!(
            "a shape of {} corners{}: {corners}",
            all.len(),
            floor(shape)
        ),
    }
}

/// Returns what the shape of a name is.
#[must_use]
pub fn defined(shape: &Given) -> String {
    defined_as(&shape.to_string(), shape)
}

/// Returns what something is that is called so.
#[must_use]
pub fn defined_as(label: &str, shape: &Given) -> String {
    let kind = match (shape.corners().len(), shape.floor) {
        (1, _) => "a point".to_string(),
        (2, _) => "a segment".to_string(),
        (count, Some(_)) => format!("a shape of {count} corners"),
        (count, None) => format!("an outline of {count} corners"),
    };
    format!("{label} is {kind}{}", floor(shape))
}

/// ` on floor 2`; nothing for an outline.
fn floor(shape: &Given) -> String {
    match shape.floor {
        Some(floor) => format!(" on floor {floor}"),
        None => String::new(),
    }
}

/// Coordinates of corners, with blanks between them.
fn corners(list: &[[i32; 2]]) -> String {
    let corners: Vec<String> = list.iter().map(|&c| Corner(c).to_string()).collect();
    corners.join(" ")
}

fn judge(shape: &Given) -> String {
    match &shape.name {
        Some(name) => defined_as(name.as_str(), shape),
        None => defined_as("this", shape),
    }
}

fn furthest(shape: &Given, [u, v]: [i32; 2], found: Furthest) -> String {
    let (first, last, value) = (
        shape.corner(found.first),
        shape.corner(found.last),
        found.value,
    );
    let sum = format!("{u}·x + {v}·y is {value}");
    if found.first == found.last {
        return format!(
            "in direction ({u}, {v}) the furthest corner of {shape} is {first}, where {sum}"
        );
    }
    format!(
        "in direction ({u}, {v}) the furthest corners of {shape} are {first} and {last}, where {sum}"
    )
}

fn length(shape: &Given, squared: u64, [from, to]: [usize; 2]) -> String {
    if squared == 0 {
        return format!("{shape} is 0 mm long: it is a point");
    }
    let (distance, from, to) = (
        Distance::of_square(squared),
        shape.corner(from),
        shape.corner(to),
    );
    format!("{shape} is {distance} long, from {from} to {to}")
}

fn width(shape: &Given, found: Width) -> String {
    let distance = Distance::of_turn(found.turn, found.squared, found.rounded);
    let (corner, edge) = (shape.corner(found.corner), shape.edge(found.edge));
    format!("{shape} is {distance} wide, from {corner} to the line of its edge {edge}")
}

fn least_box(shape: &Given, found: LeastBox) -> String {
    let [along, across] =
        [found.along, found.height].map(|side| Distance::of_side(side, found.squared));
    let edge = shape.edge(found.edge);
    format!("the least box about {shape} is {along} along its edge {edge} and {across} across it")
}

fn area(shape: &Given, twice: u64) -> String {
    format!("{shape} has an area of {}", Extent::of_twice(twice))
}

fn relation(Pair { a, b }: &Pair, found: Relation) -> String {
    match found {
        Relation::Apart => format!("{a} and {b} are apart: no point is in both"),
        Relation::Touching => {
            format!("{a} and {b} touch: they share points of their borders, and nothing more")
        }
        Relation::Overlapping => format!("{a} and {b} overlap"),
    }
}

fn inside(Pair { a, b }: &Pair, within: bool) -> String {
    let not = if within { "" } else { "not " };
    format!("{a} is {not}inside {b}")
}

fn offer(Pair { a, b }: &Pair, [u, v]: [i32; 2], found: Offer) -> String {
    if found.accepted {
        return format!(
            "yes: in direction ({u}, {v}) all of {a} is before all of {b}, so they are apart"
        );
    }
    format!(
        "no: in direction ({u}, {v}) not all of {a} is before all of {b}; they may be apart all the same"
    )
}

fn find(Pair { a, b }: &Pair, found: Separator) -> String {
    match found.direction {
        Some([u, v]) => format!(
            "{a} and {b} are apart: in direction ({u}, {v}) all of {a} is before all of {b}"
        ),
        None => format!("{a} and {b} are not apart, so there is no such direction"),
    }
}

/// Returns how near two shapes are, and where.
#[must_use]
pub fn clearance(pair: &Pair, found: Clearance) -> String {
    let Pair { a, b } = pair;
    match nearest(pair, found) {
        Some((distance, places)) => format!("{a} and {b} are {distance} apart, between {places}"),
        None => format!("{a} and {b} are not apart: they have points in common"),
    }
}

fn greatest(Pair { a, b }: &Pair, found: Greatest) -> String {
    let [first, second] = [
        Called::own(a).corner(found.first),
        Called::own(b).corner(found.second),
    ];
    let distance = Distance::of_square(found.squared);
    format!("the greatest distance of {a} and {b} is {distance}, between {first} and {second}")
}

/// Returns how near two shapes are, and between which corners and edges; nothing if they are not apart.
#[must_use]
pub fn nearest(Pair { a, b }: &Pair, found: Clearance) -> Option<(Distance, String)> {
    let where_it_is = found.nearest?;
    Some(between([&Called::own(a), &Called::own(b)], where_it_is))
}

/// Says where a cart that drives straight first meets an obstacle.
fn contact(Drive { pair, from, to }: &Drive, found: Contact) -> String {
    let (
        Pair {
            a: obstacle,
            b: cart,
        },
        way,
    ) = (pair, Edge(Corner(*from), Corner(*to)));
    match found.meeting {
        Some(meeting) => format!("{cart} meets {obstacle} {}", on_way(meeting, way)),
        None => format!("{cart} is clear of {obstacle} all the way from {way}"),
    }
}

/// Returns where on its way a cart meets something.
#[must_use]
pub fn on_way(meeting: Meeting, way: Edge) -> String {
    let (n, d) = (meeting.numerator, meeting.denominator);
    if n == 0 {
        return format!("where it begins its way from {way}");
    }
    let distance = Distance::of_part([n, d], way.squared(), meeting.safe);
    format!("after {distance}, at {n}/{d} of the way from {way}")
}

/// Says how far a changed shape reaches beyond the old one, in whole millimetres rounded up, and where.
fn excess(Pair { a, b }: &Pair, found: Excess) -> String {
    let (corner, place) = match found.beyond {
        None => return format!("{a} is inside {b}: it reaches nowhere further"),
        Some(Beyond::Corners { corner, other, .. }) => (corner, Called::own(b).corner(other)),
        Some(Beyond::Edge { corner, edge, .. }) => (corner, Called::own(b).edge(edge)),
    };
    format!(
        "{a} reaches at most {} mm beyond {b}, rounded up, from {place} to {}",
        found.up(),
        Called::own(a).corner(corner)
    )
}

fn tangents(Pair { a, b }: &Pair, found: Tangents) -> String {
    let line = |Line { from, to, .. }| format!("{} to {}", a.corner(from), b.corner(to));
    let [left, right, crossing, reverse] =
        [found.left, found.right, found.crossing, found.reverse].map(line);
    format!(
        "the lines from {a} to {b} that just touch both: both on the left of {left}; both on the right of {right}; \
         {a} on the left and {b} on the right of {crossing}; {a} on the right and {b} on the left of {reverse}"
    )
}

fn passage(Trio { left, right, cart }: &Trio, found: Passage) -> String {
    let Some(way) = found.way else {
        return format!(
            "{cart} cannot pass straight between {left} and {right}: it has room in no direction"
        );
    };
    let ([u, v], low, high) = (way.across, way.low, way.high);
    let squared = [u, v].map(|part| u64::from(part.unsigned_abs()).pow(2));
    let distance = Distance::of_turn(low.abs_diff(high), squared.iter().sum(), way.width);
    format!(
        "{cart} can pass straight between {left} and {right} with {distance} to spare, measured in direction \
         ({u}, {v}), while {u}·x + {v}·y of its origin is between {low} and {high}"
    )
}

fn made(making: &Making, Made { shape, record }: &Made) -> String {
    let what = described(shape);
    let subject = match (&shape.name, making) {
        (Some(name), _) => name.to_string(),
        (None, Making::Mirror(of)) => format!("the mirror image of {of}"),
        (None, Making::Sum(Pair { a, b })) => format!("the sum of {a} and {b}"),
        (None, Making::Merge(Pair { a, b })) => format!("{a} merged with {b}"),
        (None, Making::Grow(Pair { a, b })) => format!("{a} grown by {b}"),
        (None, Making::Sweep(_)) => "the shape of these points".to_string(),
        (None, Making::Ring(_)) => "the shape of this ring".to_string(),
        (None, Making::At(Pair { a, b })) => format!("{a} at {}", b.corner(0)),
        (None, Making::Read { name, .. }) => format!("name {name} of the log"),
        (None, Making::Entry { position, .. }) => format!("entry {position} of the log"),
    };
    let record = record.map_or(String::new(), |name| format!("record {name}, "));
    format!("{subject} is {record}{what}")
}

fn parts(Pair { a, b }: &Pair, written: &[Written]) -> String {
    let mut said = format!("the sum of {a} and {b} in parts");
    for (
        number,
        Written {
            call,
            corners: wrote,
        },
    ) in (1..).zip(written)
    {
        let what = match wrote {
            Ok(list) if list.is_empty() => "nothing".to_string(),
            Ok(list) => corners(list),
            Err(refused) => format!(
                "refused {}, {}",
                refused.number(),
                refusal::of_call(*refused, *call)
            ),
        };
        said.push_str(&format!("; call {number}: {what}"));
    }
    said
}

fn part(Pair { a, b }: &Pair, list: &[[i32; 2]], walk: Walk) -> String {
    let wrote = match list {
        [] => "no corner".to_string(),
        list => corners(list),
    };
    let then = if walk.is_over() {
        "the walk is over".to_string()
    } else {
        format!(
            "the next part goes on from {} {} 0",
            walk.first(),
            walk.second()
        )
    };
    format!("the part of the sum of {a} and {b} has {wrote}; {then}")
}

fn tablet(readings: [Reading; 2], [x, y]: [i32; 2]) -> String {
    let unit = |reading| match reading {
        Reading::Millimetres(_) => "millimetres",
        Reading::Eighths(_) => "eighths of a millimetre",
    };
    let [of_x, of_y] = readings.map(unit);
    format!(
        "the corner is {}, with x read in {of_x} and y in {of_y}",
        Corner([x, y])
    )
}

fn added(Record { name, shape, .. }: &Record, addition: Addition, log: &[u8]) -> String {
    let log = refusal::hexadecimal(log);
    match addition {
        Addition::Finished => {
            format!("{shape} is in the log as name {name}; its bytes are {log}")
        }
        Addition::Cut => format!(
            "the stores ran out before {shape} was in the log as name {name}; \
             every name still reads as before; its bytes are {log}"
        ),
    }
}

fn packed(Packing { but, .. }: &Packing, addition: Addition, log: &[u8]) -> String {
    let log = refusal::hexadecimal(log);
    let without = but.map_or(String::new(), |name| format!(" without name {name}"));
    match addition {
        Addition::Finished => format!("the log is packed{without}; its bytes are {log}"),
        Addition::Cut => format!(
            "the stores ran out before the log was packed{without}; \
             ask again with these bytes to go on; its bytes are {log}"
        ),
    }
}
