//! Cases of the greatest distance of two shapes and of the least box about one, worked out by hand.

use super::Stated;

#[rustfmt::skip]
pub const MEASURING: &[Stated] = &[
    ("Ours: the greatest distance is squared; on a tie the smallest first corner, then the smallest second", &[
        ("greatest | S | S", "ok 8 0 2 @0"),
        ("greatest | S | 3 1", "ok 10 0 0 @0"),
        ("greatest | 3 1 | S", "ok 10 0 0 @0"),
        ("greatest | 0 1 | S", "ok 5 0 1 @0"),
        ("greatest | @7 0 0 | @7 3 4", "ok 25 0 0 @7"),
        ("greatest | 0 0 2 0 | 0 3 2 3", "ok 13 0 1 @0"),
        ("greatest | 0 3 2 3 | 0 0 2 0", "ok 13 0 1 @0"),
        ("greatest | S | 5 0 7 0 7 2 5 2", "ok 53 0 2 @0"),
        ("greatest | 1 1 | 1 1", "ok 0 0 0 @0"),
        ("greatest | -1000000 -1000000 | 1000000 1000000", "ok 8000000000000 0 0 @0"),
    ]),
    ("Ours: the greatest distance is refused 1 to 5 of each shape, then 13", &[
        ("greatest | 1 1 0 0 | 0", "no 5 shape 1"),
        ("greatest | @1 S | 0 0 0", "no 1 shape 2"),
        ("greatest | @1 S | 0 0 1 0 2 0", "no 4 shape 2 edge 0 corner 2"),
        ("greatest | @1 S | S", "no 13"),
        ("greatest | S", "unreadable: missing field"),
        ("greatest | S | S | 4", "unreadable: too many fields"),
    ]),
    ("Ours: the least box lies along an edge; its sides are t and s over the edge's length", &[
        ("box | S", "ok 0 4 4 4 @0"),
        ("box | @9 0 0 3 1 2 4 -1 3", "ok 0 10 10 10 @9"),
        ("box | 5 0 10 1 0 1", "ok 1 10 100 100 @0"),
        ("box | 0 0 10 0 5 1", "ok 0 10 100 100 @0"),
    ]),
    ("Ours: of boxes as large the first; a side along the edge may reach past its ends", &[
        ("box | 0 0 4 0 0 3", "ok 0 12 16 16 @0"),
        ("box | 0 0 4 0 7 3 3 3", "ok 1 12 30 18 @0"),
        ("box | -1000000 -1000000 1000000 -1000000 1000000 1000000",
            "ok 0 4000000000000 4000000000000 4000000000000 @0"),
    ]),
    ("Ours: a box is refused 1 to 5, then 10", &[
        ("box | 3 1", "no 10"),
        ("box | 0 0 2 1", "no 10"),
        ("box | 2 1 0 0", "no 5 shape 1"),
        ("box | 0 0 1 0 2 0", "no 4 shape 1 edge 0 corner 2"),
        ("box | 1000001 0", "no 3 shape 1"),
        ("box |", "no 1 shape 1"),
        ("box | S | 4", "unreadable: too many fields"),
    ]),
];
