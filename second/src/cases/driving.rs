//! Cases of a cart that drives straight towards an obstacle, worked out by hand: S is the square of 2 mm.

use super::Stated;

#[rustfmt::skip]
pub const DRIVING: &[Stated] = &[
    ("Driving: into a side; the fraction is in lowest terms, the millimetres are whole ones before the contact", &[
        ("contact | S | 0 0 | -3 1 | 7 1", "ok 3 10 3 @0"),
        ("contact | S | 0 0 | -3 1 | 3 1", "ok 1 2 3 @0"),
        ("contact | S | 0 0 | -3 1 | 0 1", "ok 1 1 3 @0"),
        ("contact | S | 0 0 | -3 1 | -1 1", "ok never @0"),
        ("contact | S | 0 0 | -2 -1 | 4 2", "ok 1 3 2 @0"),
        ("contact | @9 S | @9 0 0 | 4 0 | -2 3", "ok 1 3 2 @9"),
    ]),
    ("Driving: past the square, by a corner, along an edge, along the line of an edge that is not reached", &[
        ("contact | S | 0 0 | -3 3 | 7 3", "ok never @0"),
        ("contact | S | 0 0 | -1 1 | 1 3", "ok 1 2 1 @0"),
        ("contact | S | 0 0 | -1 2 | 1 4", "ok never @0"),
        ("contact | S | 0 0 | -3 2 | 7 2", "ok 3 10 3 @0"),
        ("contact | S | 0 0 | 7 2 | -3 2", "ok 1 2 5 @0"),
        ("contact | S | 0 0 | -3 2 | -1 2", "ok never @0"),
    ]),
    ("Driving: from inside, from the border outwards, and of no length", &[
        ("contact | S | 0 0 | 1 1 | 9 9", "ok 0 1 0 @0"),
        ("contact | S | 0 0 | 2 1 | 9 1", "ok 0 1 0 @0"),
        ("contact | S | 0 0 | 2 2 | 2 2", "ok 0 1 0 @0"),
        ("contact | S | 0 0 | 3 2 | 3 2", "ok never @0"),
    ]),
    ("Driving: the obstacle is grown by the cart, whose origin need not be inside it", &[
        ("contact | S | -1 -1 1 -1 1 1 -1 1 | -5 1 | 5 1", "ok 2 5 4 @0"),
        ("contact | S | 1 0 | -3 1 | 7 1", "ok 1 5 2 @0"),
        ("contact | 0 0 | 0 0 0 4 | -2 -3 | 3 -3", "ok 2 5 2 @0"),
        ("contact | 0 0 | 0 0 0 4 | -2 1 | 3 1", "ok never @0"),
    ]),
    ("Driving: a post and a wall, across, along and past", &[
        ("contact | 3 4 | 0 0 | 0 0 | 6 8", "ok 1 2 5 @0"),
        ("contact | 3 4 | 0 0 | 0 0 | 6 7", "ok never @0"),
        ("contact | 3 4 | 0 0 | 3 4 | 3 4", "ok 0 1 0 @0"),
        ("contact | 0 0 2 0 | 0 0 | -2 0 | 2 0", "ok 1 2 2 @0"),
        ("contact | 0 0 2 0 | 0 0 | 5 0 | 3 0", "ok never @0"),
        ("contact | 0 0 2 0 | 0 0 | 0 1 | 2 -1", "ok 1 2 1 @0"),
        ("contact | 0 0 2 0 | 0 0 | 3 1 | 3 -1", "ok never @0"),
        ("contact | 1000000 -1000000 -999999 1000000 | 0 0 | -1000000 -1000000 | 1000000 1000000",
            "ok 2000000 3999999 1414213 @0"),
    ]),
    ("Driving: 1 to 5 of each shape, 13, then 3 of a place, the third list or the fourth, then 7", &[
        ("contact | 0 0 0 | 1 1 0 0 | 0 0 | 0 0", "no 1 shape 1"),
        ("contact | 0 0 | 1 1 0 0 | 0 0 | 1000001 0", "no 5 shape 2"),
        ("contact | @1 0 0 | 0 0 | 0 1000001 | 0 0", "no 13"),
        ("contact | 1000000 0 | -1 0 | 0 1000001 | -1000001 0", "no 3 shape 3"),
        ("contact | 1000000 0 | -1 0 | 0 1000000 | -1000001 0", "no 3 shape 4"),
        ("contact | 1000000 0 | -1 0 | 0 1000000 | -1000000 0", "no 7"),
        ("contact | 1000000 0 | 1 0 | 0 0 | 1000000 0", "ok 999999 1000000 999999 @0"),
    ]),
    ("Driving: what no drive is", &[
        ("contact | S | 0 0 | 0 0", "unreadable: missing field"),
        ("contact | S | 0 0 | 0 | 0 0", "unreadable: wrong count of numbers"),
        ("contact | S | 0 0 | 0 0 | 0 0 0", "unreadable: wrong count of numbers"),
        ("contact | S | 0 0 | @1 0 0 | 0 0", "unreadable: not a number of 32 bits"),
        ("contact | S | 0 0 | 0 0 | 0 0 |", "unreadable: too many fields"),
    ]),
];
