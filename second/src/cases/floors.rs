//! Cases of floors (document 02, W11), worked out by hand from its words; those of the log are with
//! the log's.

use super::Stated;

#[rustfmt::skip]
pub const FLOORS: &[Stated] = &[
    ("W11: each shape carries a floor, and answers carry it", &[
        ("judge | @2 S", "ok 4 @2"),
        ("judge | @65535 0 0", "ok 1 @65535"),
        ("judge | @0 0 0", "ok 1 @0"),
        ("furthest | @7 S | 0 1", "ok 2 3 2 @7"),
        ("mirror | @2 T", "ok 3 @2 | 0 -1 0 0 -1 0"),
        ("sum | @2 S | @2 T", "ok 5 @2 | 0 0 3 0 3 2 2 3 0 3"),
        ("sum | @0 S | T", "ok 5 @0 | 0 0 3 0 3 2 2 3 0 3"),
        ("merge | @2 S | @2 5 1", "ok 5 @2 | 0 0 2 0 5 1 2 2 0 2"),
        ("length | @1 S", "ok 8 0 2 @1"),
        ("width | @1 S", "ok 0 2 4 4 2 @1"),
        ("relation | @9 S | @9 3 1", "ok apart @9"),
        ("inside | @9 T | @9 S", "ok yes @9"),
        ("clearance | @9 0 40 | @9 -3000 0 3000 0", "ok ce 0 0 240000 36000000 40 @9"),
        ("clearance | @9 S | @9 2 1", "ok 0 @9"),
        ("tangents | @9 S | @9 3 1", "ok 1 0 2 0 1 0 2 0 @9"),
        ("parts | @2 S | @2 T | 2:4 2:4", "ok @2 | 2 0 0 3 0 | 2 3 2 2 3"),
        ("part | @2 S | @2 T | 2 1 0 | 2 4", "ok 2 3 2 0 @2 | 3 2 2 3"),
    ]),
    ("W11: sweeps are given their floor", &[
        ("sweep | @3 2 2 1 0 0 2 1 1 2 2 2 0 0 0", "ok 4 @3 | 0 0 2 0 2 2 0 2"),
        ("sweep | @3 3 1 3 1 0 1 | 3", "no 8"),
        ("sweep | @3", "no 1 shape 1"),
    ]),
    ("W11: 13 for two shapes of different floors", &[
        ("sum | @1 S | T", "no 13"),
        ("sum | S | @1 T", "no 13"),
        ("merge | @65535 S | @65534 5 1", "no 13"),
        ("relation | @1 S | @257 3 1", "no 13"),
        ("inside | @1 S | S", "no 13"),
        ("clearance | @1 S | 3 1", "no 13"),
        ("tangents | @1 S | 3 1", "no 13"),
        ("parts | @1 S | T | 2:4", "no 13"),
        ("part | @1 S | T | 0 0 0 | 2 4", "no 13"),
    ]),
    ("W11: 13 after both shapes' own checks", &[
        ("sum | @1 1 1 0 0 | T", "no 5 shape 1"),
        ("sum | @1 S | 0 0 0", "no 1 shape 2"),
        ("relation | @1 S | 0 0 1 0 2 0", "no 4 shape 2 edge 0 corner 2"),
        ("part | @1 S | 1000001 0 | 1 0 0 | 2 4", "no 3 shape 2"),
    ]),
    ("W11: 13 before the rest, for W6 before 14", &[
        ("part | @1 S | T | 1 0 0 | 2 4", "no 13"),
        ("part | @1 S | T | 0 0 0 | 2 3", "no 13"),
        ("parts | @1 600000 0 | 500000 0 | 1:2", "no 13"),
        ("sum | @1 600000 0 | 500000 0", "no 13"),
        ("sum | @1 S | T | 0", "no 13"),
        ("merge | @1 S | 5 1 | 3", "no 13"),
        ("tangents | @1 S | 1 1", "no 13"),
        ("clearance | @1 S | 2 1", "no 13"),
    ]),
];
