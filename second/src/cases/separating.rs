//! Cases of directions offered and found (document 02, W13), worked out by hand from its words. Where a
//! direction is found, it is this program's own: any other that is accepted is as right.

use super::Stated;

#[rustfmt::skip]
pub const SEPARATING: &[Stated] = &[
    ("W13: accepted exactly when every corner of the first is strictly below every corner of the second", &[
        ("offer | S | 3 1 | 1 0", "ok yes @0"),
        ("offer | S | 3 1 | -1 0", "ok no @0"),
        ("offer | 3 1 | S | -1 0", "ok yes @0"),
        ("offer | S | 3 1 | 0 1", "ok no @0"),
        ("offer | S | 2 1 | 1 0", "ok no @0"),
        ("offer | S | S | 1 0", "ok no @0"),
        ("offer | 0 0 | 1 1 | 1 0", "ok yes @0"),
        ("offer | 0 0 | 1 1 | 1 -1", "ok no @0"),
        ("offer | 0 0 1 0 | 2 0 3 0 | 1 0", "ok yes @0"),
        ("offer | 0 0 1 0 | 2 0 3 0 | 1 1999999", "ok yes @0"),
        ("offer | @9 S | @9 3 1 | 1 0", "ok yes @9"),
    ]),
    ("W13: after 1 to 5 and 13, refused by 11 and 12, even if the shapes are not apart", &[
        ("offer | 1 1 0 0 | 0 0 0 | 0 0", "no 5 shape 1"),
        ("offer | S | 0 0 0 | 0 0", "no 1 shape 2"),
        ("offer | @1 S | 0 0 0 | 0 0", "no 1 shape 2"),
        ("offer | @1 S | 3 1 | 0 0", "no 13"),
        ("offer | @1 S | 3 1 | 2 0", "no 13"),
        ("offer | S | 3 1 | 0 0", "no 11"),
        ("offer | S | 3 1 | 2000001 0", "no 11"),
        ("offer | S | 3 1 | 4000000 2000000", "no 11"),
        ("offer | S | 3 1 | 2 0", "no 12"),
        ("offer | S | 1 1 | 2 0", "no 12"),
        ("offer | S | 1 1 | 0 0", "no 11"),
    ]),
    ("W13: finds one, after 1 to 5 and 13, or says none if they are not apart", &[
        ("find | 0 0 1 0 | 2 0 3 0", "ok 1 0 @0"),
        ("find | 0 0 | 0 7", "ok 0 1 @0"),
        ("find | @9 0 0 | @9 -7 0", "ok -1 0 @9"),
        ("find | S | 2 1", "ok none @0"),
        ("find | S | 1 1", "ok none @0"),
        ("find | 0 0 | 0 0", "ok none @0"),
        ("find | 0 0 2 2 | 2 0 0 2", "ok none @0"),
        ("find | @9 S | @9 S", "ok none @9"),
        ("find | 1 1 0 0 | 0 0 0", "no 5 shape 1"),
        ("find | @1 S | 0 0 0", "no 1 shape 2"),
        ("find | @1 S | 3 1", "no 13"),
        ("find | @1 S | S", "no 13"),
    ]),
    ("W13: an edge of both with the same direction, longer in the sum than a direction may be", &[
        ("find | -1000000 -1000000 1000000 -999999 | -1000000 -999999 1000000 -999998", "ok -1 2000000 @0"),
        ("offer | -1000000 -1000000 1000000 -999999 | -1000000 -999999 1000000 -999998 | -1 2000000", "ok yes @0"),
        ("offer | -1000000 -1000000 1000000 -999999 | -1000000 -999999 1000000 -999998 | 0 1", "ok no @0"),
        ("offer | -1000000 -1000000 1000000 -999999 | -1000000 -999999 1000000 -999998 | -2 4000000", "no 11"),
    ]),
];
