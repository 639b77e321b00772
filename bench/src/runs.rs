//! What is timed: a loop of its own for each question, proved and plain.
use crate::plain::{self, MOST, Place};
use crate::shapes::Case;
use crate::timing::{Run, block, block_bytes, block_logs};
use cocklesway::{Book, Reading, Refusal, Shape, Walk, bytes};

/// The floor that all shapes are on.
const FLOOR: u32 = 3;

/// The name that is read and added in logs.
pub const NAME: u16 = 1;

/// How many corners a part of a sum has.
const PART: usize = 16;

/// Both ways of a question: of these lists of a case, and perhaps of an output, or of a direction.
macro_rules! both {
    ($question:ident($($list:ident),*)) => {
        [
            |cases| block(cases, |c, _| cocklesway::$question($(on(&c.$list)),*)),
            |cases| block(cases, |c, _| plain::$question($(&c.$list, FLOOR),*)),
        ]
    };
    ($question:ident($($list:ident),*; out)) => {
        [
            |cases| block(cases, |c, out| count(cocklesway::$question($(on(&c.$list),)* corners(out)))),
            |cases| block(cases, |c, out| plain::$question($(&c.$list, FLOOR,)* out)),
        ]
    };
    ($question:ident($($list:ident),*; $u:literal, $v:literal)) => {
        [
            |cases| block(cases, |c, _| cocklesway::$question($(on(&c.$list),)* [$u, $v])),
            |cases| block(cases, |c, _| plain::$question($(&c.$list, FLOOR,)* $u, $v)),
        ]
    };
}

/// The same for the calls on bytes, and perhaps of the bytes of an output.
macro_rules! on_bytes {
    ($question:ident, $plain:ident($($k:literal),*)) => {
        [
            |cases| block_bytes(cases, |c, _| bytes::$question($(&c.bytes[$k], FLOOR),*)),
            |cases| block_bytes(cases, |c, _| plain::$plain($(&c.bytes[$k], FLOOR),*)),
        ]
    };
    ($question:ident, $plain:ident($($k:literal),*; $room:expr)) => {
        [
            |cases| block_bytes(cases, |c, out| bytes::$question($(&c.bytes[$k], FLOOR,)* &mut out[..$room])),
            |cases| block_bytes(cases, |c, out| plain::$plain($(&c.bytes[$k], FLOOR,)* &mut out[..$room])),
        ]
    };
}

pub const JUDGE: [Run; 2] = both!(judge(a));
pub const FURTHEST: [Run; 2] = both!(furthest(a; 3, 1));
pub const MIRROR: [Run; 2] = both!(mirror(a; out));
pub const SUM: [Run; 2] = both!(sum(a, b; out));
pub const MERGE: [Run; 2] = both!(merge(a, b; out));
pub const GROW: [Run; 2] = both!(grow(a, b; out));
pub const SWEEP: [Run; 2] = both!(sweep(a; out));
pub const RING: [Run; 2] = both!(ring(a; out));
pub const LENGTH: [Run; 2] = both!(length(a));
pub const WIDTH: [Run; 2] = both!(width(a));
pub const AREA: [Run; 2] = both!(area(a));
pub const BOX: [Run; 2] = both!(least_box(a));
pub const RELATION: [Run; 2] = both!(relation(a, b));
pub const INSIDE: [Run; 2] = both!(inside(a, b));
pub const OFFER: [Run; 2] = both!(offer(a, b; 3, 1));
pub const FIND: [Run; 2] = both!(find(a, b));
pub const CLEARANCE: [Run; 2] = both!(clearance(a, b));
pub const GREATEST: [Run; 2] = both!(greatest(a, b));
pub const EXCESS: [Run; 2] = both!(excess(a, b));
pub const TANGENTS: [Run; 2] = both!(tangents(a, b));
pub const PASSAGE: [Run; 2] = both!(passage(a, b, cart));

/// The second list is the cart.
pub const CONTACT: [Run; 2] = [
    |cases| {
        block(cases, |c, _| {
            let [from, to] = c.way;
            cocklesway::contact(on(&c.a), on(&c.b), from, to)
        })
    },
    |cases| {
        block(cases, |c, _| {
            let [from, to] = c.way;
            plain::contact(&c.a, FLOOR, &c.b, FLOOR, from, to)
        })
    },
];

pub const BEGIN: [Run; 2] = [
    |cases| block(cases, |c, _| Walk::begin(on(&c.a), on(&c.b))),
    |cases| block(cases, |c, _| plain::begin(&c.a, FLOOR, &c.b, FLOOR)),
];

/// The first corners of a sum in parts.
pub const FIRST_PART: [Run; 2] = [
    |cases| part(cases, PART),
    |cases| {
        block(cases, |c, out| {
            plain::part(&c.a, FLOOR, &c.b, FLOOR, Place::BEGUN, PART, out)
        })
    },
];

/// A part of no corners, proved: what every part costs.
pub const NO_PART: Run = |cases| part(cases, 0);

pub const LOG_READ: [Run; 2] = [
    |cases| {
        block(cases, |c, out| {
            count(cocklesway::log_read(&c.log, NAME, corners(out)))
        })
    },
    |cases| block(cases, |c, out| plain::log_read(&c.log, NAME, out)),
];

pub const LOG_ENTRY: [Run; 2] = [
    |cases| {
        block(cases, |c, out| {
            let entry = cocklesway::log_entry(&c.log, c.position, corners(out));
            entry.map(|(name, shape)| (name, shape.corners.len()))
        })
    },
    |cases| block(cases, |c, out| plain::log_entry(&c.log, c.position, out)),
];

pub const LOG_NEAREST: [Run; 2] = [
    |cases| {
        block(cases, |c, _| {
            cocklesway::log_nearest(&c.log, on(&c.a), None)
        })
    },
    |cases| block(cases, |c, _| plain::log_nearest(&c.log, &c.a, FLOOR, None)),
];

/// The first list is the cart.
pub const LOG_GAP: [Run; 2] = [
    |cases| block(cases, |c, _| cocklesway::log_gap(&c.log, on(&c.a))),
    |cases| block(cases, |c, _| plain::log_gap(&c.log, &c.a, FLOOR)),
];

/// The same, on its way.
pub const LOG_CONTACT: [Run; 2] = [
    |cases| {
        block(cases, |c, _| {
            let [from, to] = c.way;
            cocklesway::log_contact(&c.log, on(&c.a), from, to)
        })
    },
    |cases| {
        block(cases, |c, _| {
            let [from, to] = c.way;
            plain::log_contact(&c.log, &c.a, FLOOR, from, to)
        })
    },
];

pub const LOG_ADD: [Run; 2] = [
    |cases| {
        block_logs(cases, |c, log| {
            Book::new(log).add(NAME, on(&c.a), usize::MAX)
        })
    },
    |cases| {
        block_logs(cases, |c, log| {
            plain::log_add(log, NAME, &c.a, FLOOR, usize::MAX)
        })
    },
];

/// A log packed over a copy of itself.
pub const LOG_PACK: [Run; 2] = [
    |cases| {
        block_logs(cases, |c, log| {
            cocklesway::log_pack(&c.log, log, None, usize::MAX)
        })
    },
    |cases| {
        block_logs(cases, |c, log| {
            plain::log_pack(&c.log, log, None, usize::MAX)
        })
    },
];

/// A corner of readings, for each corner of the list.
pub const TABLET: [Run; 2] = [
    |cases| readings(cases, |x, y| cocklesway::tablet(x, y).is_ok()),
    |cases| readings(cases, |x, y| plain::tablet(x, y).refusal == 0),
];

pub const JUDGE_BYTES: [Run; 2] = on_bytes!(judge, judge_bytes(0));
pub const SUM_BYTES: [Run; 2] = on_bytes!(sum, sum_bytes(0, 1; 8 * MOST));
pub const SUM_BYTES_SHORT: [Run; 2] = on_bytes!(sum, sum_bytes(0, 1; 8));
pub const MERGE_BYTES: [Run; 2] = on_bytes!(merge, merge_bytes(0, 1; 8 * MOST));
pub const RELATION_BYTES: [Run; 2] = on_bytes!(relation, relation_bytes(0, 1));

/// The first part of a sum, of k corners at most, proved.
fn part(cases: &[Case], k: usize) -> u64 {
    block(cases, |c, out| {
        let part = Walk::at(0, 0, false).part(on(&c.a), on(&c.b), k, corners(out));
        part.map(|part| (part.corners.len(), part.walk))
    })
}

/// Reads every corner of a list, x in millimetres and y in eighths.
#[inline(always)]
fn readings(cases: &[Case], is_read: fn(Reading, Reading) -> bool) -> u64 {
    block(cases, |c, _| {
        let corners = c.a.as_chunks::<2>().0.iter();
        let read = corners.filter(|p| {
            let (x, y) = (p[0].into(), 8.0 * f64::from(p[1]));
            is_read(Reading::Millimetres(x), Reading::Eighths(y))
        });
        read.count()
    })
}

/// How many corners were written.
fn count(written: Result<Shape, Refusal>) -> Result<usize, Refusal> {
    written.map(|shape| shape.corners.len())
}

/// A list as the package takes it.
fn on(list: &[i32]) -> Shape<'_> {
    Shape::of_numbers(list, FLOOR)
}

/// An output as the package takes it.
fn corners(out: &mut [i32]) -> &mut [[i32; 2]] {
    out.as_chunks_mut().0
}
