//! Cases of a cart that passes between two obstacles, worked out by hand: a corridor of 5 mm between the
//! wall 0 5 8 5 above it and the wall 0 0 8 0 below it; two posts; the bed of `growing` and a wall.

use super::Stated;

#[rustfmt::skip]
pub const PASSING: &[Stated] = &[
    ("Passing: blocked by 1 mm, touching both walls, and 1 mm of room; either wall may be the left one", &[
        ("passage | 0 5 8 5 | 0 0 8 0 | -1 -3 1 -3 1 3 -1 3", "ok blocked @0"),
        ("passage | 0 5 8 5 | 0 0 8 0 | -1 -3 1 -3 1 2 -1 2", "ok blocked @0"),
        ("passage | 0 5 8 5 | 0 0 8 0 | -1 -2 1 -2 1 2 -1 2", "ok 0 1 2 3 1 @0"),
        ("passage | 0 0 8 0 | 0 5 8 5 | -1 -2 1 -2 1 2 -1 2", "ok 0 -1 -3 -2 1 @0"),
        ("passage | 0 5 8 5 | 0 0 8 0 | -1 -1 1 -1 1 0 -1 0", "ok 0 1 1 5 4 @0"),
    ]),
    ("Passing: the cart's origin need not be inside it; two carts that are mirror images", &[
        ("passage | 0 5 8 5 | 0 0 8 0 | 9 10 10 10 9 13", "ok 0 1 -10 -8 2 @0"),
        ("passage | 0 5 8 5 | 0 0 8 0 | 0 0 1 0 0 3", "ok 0 1 0 2 2 @0"),
        ("passage | 0 5 8 5 | 0 0 8 0 | 0 -3 0 0 -1 0", "ok 0 1 3 5 2 @0"),
    ]),
    ("Passing: between posts; the direction is in lowest terms, and the width is rounded down", &[
        ("passage | 6 8 | 0 0 | 0 0", "ok 3 4 0 50 10 @0"),
        ("passage | 6 8 | 0 0 | 0 0 1 0", "ok 5 8 0 89 9 @0"),
        ("passage | 1 1 | 0 0 | 0 0", "ok 1 1 0 2 1 @0"),
        ("passage | 6 8 | 0 0 | 7 7", "ok 3 4 -49 1 10 @0"),
        ("passage | 6 8 | 6 8 | 7 7", "ok blocked @0"),
        ("passage | 1 0 | 0 0 | 0 0 1 0", "ok blocked @0"),
        ("passage | 2 0 | 0 0 | 0 0 1 0", "ok 1 0 0 1 1 @0"),
    ]),
    ("Passing: a cart 900 mm long and 500 mm wide, between a bed and a wall 600 mm from it, lengthwise only", &[
        ("passage | -1000 1050 1000 1050 | -1000 -450 1000 -450 1000 450 -1000 450 \
          | -450 -250 450 -250 450 250 -450 250", "ok 0 1 700 800 100 @0"),
        ("passage | -1000 1050 1000 1050 | -1000 -450 1000 -450 1000 450 -1000 450 \
          | -250 -450 250 -450 250 450 -250 450", "ok blocked @0"),
    ]),
    ("Passing: 1 to 5 of each shape, 13 unless all floors are equal, then 6 and 7 of the left, of the right", &[
        ("passage | 0 0 0 | 1 1 0 0 | ", "no 1 shape 1"),
        ("passage | 0 0 | 1 1 0 0 | ", "no 5 shape 2"),
        ("passage | 0 0 | 0 0 1 1 | ", "no 1 shape 3"),
        ("passage | @1 0 0 | 0 0 1 1 | @2", "no 1 shape 3"),
        ("passage | @1 0 0 | 0 0 1 1 | @1 0 0", "no 13"),
        ("passage | @1 0 0 | @1 9 9 | 0 0", "no 13"),
        ("passage | @1 9 0 | @1 0 0 | @1 0 0", "ok 1 0 0 9 9 @1"),
        ("passage | @1 1000000 5 | 0 0 | -1 0", "no 13"),
        ("passage | 1000000 5 | 0 0 | -1 0", "no 7"),
        ("passage | 0 0 | 1000000 5 | -1 0", "no 7"),
        ("passage | 1000000 5 | 0 0 | 1 0", "ok 200000 1 -200000 199999800005 1000000 @0"),
    ]),
];
