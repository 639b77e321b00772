//! Cases of changed shapes, worked out by hand: the square 0 0 10 0 10 10 0 10 before the change.

use super::Stated;

#[rustfmt::skip]
pub const CHANGES: &[Stated] = &[
    ("Changes: none, a smaller shape and a post are inside", &[
        ("excess | 0 0 10 0 10 10 0 10 | 0 0 10 0 10 10 0 10", "ok inside @0"),
        ("excess | 2 2 8 2 8 8 2 8 | 0 0 10 0 10 10 0 10", "ok inside @0"),
        ("excess | 5 5 | 0 0 10 0 10 10 0 10", "ok inside @0"),
        ("excess | 10 5 | 0 0 10 0 10 10 0 10", "ok inside @0"),
        ("excess | 3 0 | 0 0 10 0", "ok inside @0"),
    ]),
    ("Changes: moved right by 3, the first of two corners; a square in place of a post; the furthest corner", &[
        ("excess | 3 0 13 0 13 10 3 10 | 0 0 10 0 10 10 0 10", "ok cc 1 1 9 3 @0"),
        ("excess | 0 0 10 0 10 10 0 10 | 5 5", "ok cc 0 0 50 8 @0"),
        ("excess | 5 -3 10 0 5 14 0 0 | 0 0 10 0 10 10 0 10", "ok ce 2 2 40 100 4 @0"),
        ("excess | 0 0 10 0 10 10 0 10 | 2 2 8 2 8 8 2 8", "ok cc 0 0 8 3 @0"),
    ]),
    ("Changes: rounded up, also from less than 1 mm; the long edge of a triangle", &[
        ("excess | 11 11 | 0 0 10 0 10 10 0 10", "ok cc 0 2 2 2 @0"),
        ("excess | 3 3 | 0 0 4 0 0 3", "ok ce 0 1 9 25 2 @0"),
        ("excess | 1 0 | 0 0 3 1", "ok ce 0 0 1 10 1 @0"),
        ("excess | -1000000 -1000000 | 1000000 1000000", "ok cc 0 0 8000000000000 2828428 @0"),
    ]),
    ("Changes: their faults", &[
        ("excess | 0 0 0 | 1 1 0 0", "no 1 shape 1"),
        ("excess | 0 0 | 1 1 0 0", "no 5 shape 2"),
        ("excess | @1 0 0 | 1 1", "no 13"),
        ("excess | @3 0 0 | @3 3 4", "ok cc 0 0 25 5 @3"),
    ]),
];
