//! Cases of rings as people draw them: S is the square of 2 mm.

use super::Stated;

#[rustfmt::skip]
pub const RING: &[Stated] = &[
    ("Ours: a ring in either sense, from any corner, open or closed, is the same shape", &[
        ("ring | S", "ok 4 @0 | 0 0 2 0 2 2 0 2"),
        ("ring | 0 0 0 2 2 2 2 0", "ok 4 @0 | 0 0 2 0 2 2 0 2"),
        ("ring | @3 2 2 0 2 0 0 2 0", "ok 4 @3 | 0 0 2 0 2 2 0 2"),
        ("ring | 2 2 2 0 0 0 0 2", "ok 4 @0 | 0 0 2 0 2 2 0 2"),
        ("ring | S 0 0", "ok 4 @0 | 0 0 2 0 2 2 0 2"),
        ("ring | 0 2 2 2 2 0 0 0 0 2", "ok 4 @0 | 0 0 2 0 2 2 0 2"),
    ]),
    ("Ours: neighbours may be equal, and corners in line", &[
        ("ring | 0 0 1 0 2 0 2 2 0 2", "ok 4 @0 | 0 0 2 0 2 2 0 2"),
        ("ring | 1 0 2 0 2 2 0 2 0 0", "ok 4 @0 | 0 0 2 0 2 2 0 2"),
        ("ring | 0 1 0 2 1 2 2 2 2 1 2 0 1 0 0 0 0 1", "ok 4 @0 | 0 0 2 0 2 2 0 2"),
        ("ring | 0 0 0 0 2 0 2 2 2 2 2 2 0 2", "ok 4 @0 | 0 0 2 0 2 2 0 2"),
        ("ring | S 0 0 0 0", "ok 4 @0 | 0 0 2 0 2 2 0 2"),
    ]),
    ("Ours: a ring of one point, and one to the end of a segment and back", &[
        ("ring | 3 1", "ok 1 @0 | 3 1"),
        ("ring | 3 1 3 1 3 1", "ok 1 @0 | 3 1"),
        ("ring | 3 1 0 1", "ok 2 @0 | 0 1 3 1"),
        ("ring | 3 1 0 1 3 1", "ok 2 @0 | 0 1 3 1"),
        ("ring | 0 0 1 1 2 2", "ok 2 @0 | 0 0 2 2"),
        ("ring | 1 1 2 2 1 1 0 0", "ok 2 @0 | 0 0 2 2"),
    ]),
    ("Ours: a ring that turns in is refused 4, with the corner before and the corner, counted in the list", &[
        ("ring | 0 0 4 0 1 1 0 4", "no 4 shape 1 edge 1 corner 2"),
        ("ring | 0 4 1 1 4 0 0 0", "no 4 shape 1 edge 2 corner 1"),
        ("ring | 4 0 4 0 2 0 0 0 0 4 1 1", "no 4 shape 1 edge 0 corner 5"),
        ("ring | 1 1 0 4 0 0 4 0 1 1", "no 4 shape 1 edge 3 corner 0"),
        ("ring | 0 0 5 4 -1 4 4 0 2 6", "no 4 shape 1 edge 2 corner 3"),
    ]),
    ("Ours: so is one that goes back, goes round again or crosses itself", &[
        ("ring | 0 0 3 0 1 0 2 0", "no 4 shape 1 edge 3 corner 0"),
        ("ring | 0 0 2 0 2 2 2 0", "no 4 shape 1 edge 3 corner 0"),
        ("ring | S S", "no 4 shape 1 edge 3 corner 4"),
        ("ring | 0 0 2 2 2 0 0 2", "no 4 shape 1 edge 0 corner 1"),
    ]),
    ("Ours: a ring is refused 1, 3, 4, then 8", &[
        ("ring | 0 0 4 0 1 1 0 4 | 0", "no 4 shape 1 edge 1 corner 2"),
        ("ring | 0 0 4 0 1 1 0 1000001", "no 3 shape 1"),
        ("ring |", "no 1 shape 1"),
        ("ring | 1 1 1", "no 1 shape 1"),
        ("ring | 0 0 1000001 0 1 1 0 0", "no 3 shape 1"),
        ("ring | 0 0 0 2 2 2 2 0 | 7", "no 8"),
        ("ring | 0 0 0 2 2 2 2 0 | 8", "ok 4 @0 | 0 0 2 0 2 2 0 2"),
        ("ring | S | -1", "unreadable: not a count"),
        ("ring | S | 8 | 8", "unreadable: too many fields"),
    ]),
];
