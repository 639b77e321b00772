//! The rows of the tables: a question, and cases for which it does its work.
use crate::pairs::{
    Make, alike, apart, at_place, beside_cart, crossing, drawn, drawn_twice, driving_in,
    driving_past, elsewhere, far, kept, large, merged, moved_away, near_place, nested, passing,
    scattered, shuffled, single, stocked, stocked_for_cart, stocked_for_drive, stuck, summed,
    twice, under_cart,
};
use crate::plain::MOST;
use crate::runs::*;
use crate::shapes::{Case, Outline, polygon, regular};
use crate::timing::Run;

/// A question in both ways, proved first.
pub type Row = (&'static str, [Run; 2], Make);

/// Questions at several sizes, proved beside plain.
pub struct Table {
    pub legend: &'static str,
    pub sizes: &'static [usize],
    /// what the sizes count
    pub counted: Counted,
    pub outline: Outline,
    /// how the cases are lent
    pub form: fn(Case) -> Case,
    pub rows: &'static [Row],
}

/// Corners of a shape, or records of a log.
#[derive(Clone, Copy)]
pub enum Counted {
    Corners,
    Records,
}

impl Counted {
    pub fn word(self) -> &'static str {
        match self {
            Counted::Corners => "corners",
            Counted::Records => "records",
        }
    }

    /// How many corners n of these have together: a record has 8.
    pub fn corners(self, n: usize) -> usize {
        match self {
            Counted::Corners => n,
            Counted::Records => 8 * n,
        }
    }
}

/// How many corners the shapes have.
const SIZES: &[usize] = &[32, 100, 500, MOST];

/// Corners of the obstacles that a cart of 8 is asked against. With the last they are as many as a shape may have.
const OBSTACLES: &[usize] = &[32, 100, 500, MOST - 8];

/// How many records a log has, and how many where every pair of them is compared.
const RECORDS: &[usize] = &[100, 1000];
const PAIRED: &[usize] = &[40];

/// Every question on shapes in general position, calls on bytes, regular shapes, carts, and floors.
pub const TABLES: [Table; 6] = [
    Table {
        legend: "\
microseconds a call, proved and plain, and their ratio; of two shapes one has 4 corners less, and at 1,024 those of
`sum`, `grow`, `begin` and `part` have 512 and 506; a sweep has the column's count of points; a log has 4 records of
a quarter of the corners each, and the added shape has all
",
        sizes: SIZES,
        counted: Counted::Corners,
        outline: polygon,
        form: Case::in_numbers,
        rows: &QUESTIONS,
    },
    Table {
        legend: "\
the calls of a host, on bytes: both shapes of their sums have the column's corner count, at most 512; of those refused
6 the second has 1,024
",
        sizes: SIZES,
        counted: Counted::Corners,
        outline: polygon,
        form: Case::in_bytes,
        rows: &BYTES,
    },
    Table {
        legend: "regular polygons\n",
        sizes: SIZES,
        counted: Counted::Corners,
        outline: regular,
        form: Case::in_numbers,
        rows: &REGULAR,
    },
    Table {
        legend: "an obstacle of the column's corner count, of a passage two, and a cart of 8 corners or a place\n",
        sizes: OBSTACLES,
        counted: Counted::Corners,
        outline: polygon,
        form: Case::in_numbers,
        rows: &CARTS,
    },
    Table {
        legend: "a log of the column's count of records, each of 8 corners and under its own name, on one floor\n",
        sizes: RECORDS,
        counted: Counted::Records,
        outline: polygon,
        form: Case::in_numbers,
        rows: &FLOORS,
    },
    Table {
        legend: "the same, of which every two are compared once grown by a cart of 8 corners\n",
        sizes: PAIRED,
        counted: Counted::Records,
        outline: polygon,
        form: Case::in_numbers,
        rows: &GAPS,
    },
];

const QUESTIONS: [Row; 36] = [
    ("judge", JUDGE, single),
    ("judge, refused 5", JUDGE, elsewhere),
    ("furthest", FURTHEST, single),
    ("mirror", MIRROR, single),
    ("length", LENGTH, single),
    ("width", WIDTH, single),
    ("area", AREA, single),
    ("box", BOX, single),
    ("sum", SUM, summed),
    ("sum, refused 6 at 1,024", SUM, crossing),
    ("begin", BEGIN, summed),
    ("part of 16 corners", FIRST_PART, summed),
    ("merge", MERGE, merged),
    ("grow", GROW, summed),
    ("sweep, points anywhere", SWEEP, scattered),
    ("sweep, all corners", SWEEP, shuffled),
    ("ring, clockwise", RING, drawn),
    ("ring, points twice", RING, drawn_twice),
    ("relation, apart", RELATION, apart),
    ("relation, overlapping", RELATION, crossing),
    ("inside, yes", INSIDE, nested),
    ("inside, no", INSIDE, crossing),
    ("offer", OFFER, apart),
    ("find, apart", FIND, apart),
    ("find, none", FIND, crossing),
    ("clearance, apart", CLEARANCE, apart),
    ("clearance, none", CLEARANCE, crossing),
    ("greatest", GREATEST, apart),
    ("excess", EXCESS, crossing),
    ("excess, inside", EXCESS, nested),
    ("tangents", TANGENTS, apart),
    ("tangents, refused 9", TANGENTS, crossing),
    ("tablet, a corner each", TABLET, single),
    ("log_read", LOG_READ, kept),
    ("log_add", LOG_ADD, kept),
    ("log_pack", LOG_PACK, kept),
];

const BYTES: [Row; 8] = [
    ("bytes: judge", JUDGE_BYTES, single),
    ("bytes: sum", SUM_BYTES, alike),
    ("bytes: sum, refused 6", SUM_BYTES, large),
    ("bytes: sum, refused 7", SUM_BYTES, far),
    ("bytes: sum, refused 8", SUM_BYTES_SHORT, alike),
    ("bytes: merge", MERGE_BYTES, merged),
    ("bytes: apart", RELATION_BYTES, apart),
    ("bytes: overlapping", RELATION_BYTES, crossing),
];

const REGULAR: [Row; 17] = [
    ("judge", JUDGE, single),
    ("furthest", FURTHEST, single),
    ("length", LENGTH, single),
    ("width", WIDTH, single),
    ("box", BOX, single),
    ("sum", SUM, summed),
    ("merge", MERGE, merged),
    ("grow", GROW, summed),
    ("sweep, all corners", SWEEP, shuffled),
    ("ring, clockwise", RING, drawn),
    ("relation, apart", RELATION, apart),
    ("relation, overlapping", RELATION, crossing),
    ("inside, yes", INSIDE, nested),
    ("find, none", FIND, crossing),
    ("clearance, apart", CLEARANCE, apart),
    ("greatest", GREATEST, apart),
    ("tangents", TANGENTS, apart),
];

const CARTS: [Row; 12] = [
    ("sum", SUM, under_cart),
    ("grow", GROW, under_cart),
    ("relation, apart", RELATION, beside_cart),
    ("relation, overlapping", RELATION, under_cart),
    ("relation of a place, apart", RELATION, near_place),
    ("relation of a place, in it", RELATION, at_place),
    ("clearance, apart", CLEARANCE, beside_cart),
    ("clearance, none", CLEARANCE, under_cart),
    ("passage, free", PASSAGE, passing),
    ("passage, blocked", PASSAGE, stuck),
    ("contact, met", CONTACT, driving_in),
    ("contact, never", CONTACT, driving_past),
];

const FLOORS: [Row; 3] = [
    ("log_entry", LOG_ENTRY, stocked),
    ("log_nearest", LOG_NEAREST, stocked),
    ("log_contact", LOG_CONTACT, stocked_for_drive),
];

const GAPS: [Row; 1] = [("log_gap", LOG_GAP, stocked_for_cart)];

/// Every proved question, on a shape and the same one moved away (`moved_away`). It takes the whole walk to find that a
/// shape overlaps one that it is inside of. A log has as many records as the column says corners.
pub const GROWTH: [(&str, Run, Make); 31] = [
    ("judge", JUDGE[0], moved_away),
    ("judge, refused 5", JUDGE[0], elsewhere),
    ("furthest", FURTHEST[0], moved_away),
    ("mirror", MIRROR[0], moved_away),
    ("sum", SUM[0], moved_away),
    ("begin", BEGIN[0], moved_away),
    ("part of none", NO_PART, moved_away),
    ("part of 16 corners", FIRST_PART[0], moved_away),
    ("merge", MERGE[0], moved_away),
    ("grow", GROW[0], moved_away),
    ("sweep", SWEEP[0], moved_away),
    ("ring", RING[0], drawn),
    ("length", LENGTH[0], moved_away),
    ("width", WIDTH[0], moved_away),
    ("area", AREA[0], moved_away),
    ("box", BOX[0], moved_away),
    ("relation", RELATION[0], twice),
    ("inside", INSIDE[0], twice),
    ("offer", OFFER[0], moved_away),
    ("find", FIND[0], twice),
    ("clearance", CLEARANCE[0], moved_away),
    ("greatest", GREATEST[0], moved_away),
    ("excess", EXCESS[0], moved_away),
    ("tangents", TANGENTS[0], moved_away),
    ("passage", PASSAGE[0], passing),
    ("contact", CONTACT[0], driving_in),
    ("log_read, records", LOG_READ[0], moved_away),
    ("log_add, records", LOG_ADD[0], moved_away),
    ("log_entry, records", LOG_ENTRY[0], stocked),
    ("log_nearest, records", LOG_NEAREST[0], stocked),
    ("log_contact, records", LOG_CONTACT[0], stocked_for_drive),
];
