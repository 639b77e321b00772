//! Cases of the current shapes of a log, worked out by hand: two posts 10 mm to the right and to the left,
//! three posts in a row, and some that moved.

use super::Stated;

#[rustfmt::skip]
pub const AROUND: &[Stated] = &[
    ("Ours: an entry is the latest record of a name, in the log's order, with its name and its floor", &[
        ("entry | 0D000100070001000000000000005A0D000100080002000000000000005A0D000100070003000000000000005A \
          | 0", "ok 1 8 @0 | 2 0"),
        ("entry | 0D000100070001000000000000005A0D000100080002000000000000005A0D000100070003000000000000005A \
          | 1", "ok 1 7 @0 | 3 0"),
        ("entry | 0F0002000700020101000000FFFFFFFF5A | 0 | 2", "ok 1 7 @258 | 1 -1"),
        ("entry | 0D000100070001000000000000005A0D000100080002000000000000005A0D000100070003000000000000005A0D00 \
          | 1 | 2048", "ok 1 7 @0 | 3 0"),
    ]),
    ("Ours: an entry is refused 15, 20 past the last, then 8", &[
        ("entry | 0D000100070001000000000000005A0D000100080002000000000000005A0D000100070003000000000000005A \
          | 2", "no 20"),
        ("entry | 0D000100070001000000000000005A0D000100080002000000000000005A0D000100070003000000000000005A \
          | 2147483647 | 0", "no 20"),
        ("entry | 0D000100070001000000000000005A0D000100080002000000000000005A0D000100070003000000000000005A \
          | 0 | 1", "no 8"),
        ("entry | 0D000100070001000000000000005A0D000100080002000000000000005A0D000100070003000000000000005A01005A \
          | 2 | 0", "no 15 place 45"),
        ("entry | | 0", "no 20"),
    ]),
    ("Ours: what no entry is", &[
        ("entry | | -1", "unreadable: not a count"),
        ("entry | | 0 1", "unreadable: wrong count of numbers"),
        ("entry | | ", "unreadable: wrong count of numbers"),
        ("entry | ", "unreadable: missing field"),
        ("entry | 0 | 0", "unreadable: not bytes"),
        ("entry | | 0 | -1", "unreadable: not a count"),
        ("entry | | 0 | 1 | 2", "unreadable: too many fields"),
    ]),
    ("Ours: the nearest of two posts as near is the first in the log; one is left out", &[
        ("nearest | 0D00010007000A000000000000005A0D0001000800F6FFFFFF000000005A | 0 0 | ", "ok 7 cc 0 0 100 10 @0"),
        ("nearest | 0D00010007000A000000000000005A0D0001000800F6FFFFFF000000005A | 0 0 | 7", "ok 8 cc 0 0 100 10 @0"),
        ("nearest | 0D00010007000A000000000000005A0D0001000800F6FFFFFF000000005A | 0 0 | 9", "ok 7 cc 0 0 100 10 @0"),
        ("nearest | 0D00010007000A000000000000005A0D0001000800F6FFFFFF000000005A | -1 0 | ", "ok 8 cc 0 0 81 9 @0"),
        ("nearest | 0D00010007000A000000000000005A0D0001000800F6FFFFFF000000005A \
          | 0 -3 0 3 | ", "ok 7 ec 0 0 60 36 10 @0"),
        ("nearest | 0D00010007000A000000000000005A0D0001000800F6FFFFFF000000005A \
          | -12 -4 -8 -4 -8 -2 -12 -2 | ", "ok 8 ec 0 2 8 16 2 @0"),
    ]),
    ("Ours: the nearest may meet the shape: the first in the log that does", &[
        ("nearest | 0D00010007000A000000000000005A0D0001000800F6FFFFFF000000005A | 10 0 | ", "ok 7 0 @0"),
        ("nearest | 0D00010007000A000000000000005A0D0001000800F6FFFFFF000000005A | -10 0 10 0 | ", "ok 7 0 @0"),
        ("nearest | 0D00010007000A000000000000005A0D0001000800F6FFFFFF000000005A | -10 0 9 0 | ", "ok 8 0 @0"),
    ]),
    ("Ours: a name that moved, or went to another floor, is where its latest record says", &[
        ("nearest | 0D00010007000A000000000000005A0D0001000800F6FFFFFF000000005A0D000100070014000000000000005A \
          | 0 0 | ", "ok 8 cc 0 0 100 10 @0"),
        ("nearest | 0D00010007000A000000000000005A0D0001000800F6FFFFFF000000005A0D000100070014000000000000005A \
          | 15 0 | ", "ok 7 cc 0 0 25 5 @0"),
        ("nearest | 0D00010007000A000000000000005A0D0001000800F6FFFFFF000000005A0F0002000700010000000000000000005A \
          | 0 0 | ", "ok 8 cc 0 0 100 10 @0"),
        ("nearest | 0D00010007000A000000000000005A0D0001000800F6FFFFFF000000005A0F0002000700010000000000000000005A \
          | @1 0 4 | ", "ok 7 cc 0 0 16 4 @1"),
    ]),
    ("Ours: nearest is refused 1 to 5, 15, then 20", &[
        ("nearest | 0D00010007000A000000000000005A0D0001000800F6FFFFFF000000005A | @1 0 0 | ", "no 20"),
        ("nearest | 0D00010007000A000000000000005A0D0001000800F6FFFFFF000000005A0F0002000700010000000000000000005A \
          | 0 0 | 8", "no 20"),
        ("nearest | | 0 0 | ", "no 20"),
        ("nearest | 01005A | 0 0 | ", "no 15 place 0"),
        ("nearest | 01005A | 0 | ", "no 1 shape 1"),
        ("nearest | | 1 1 0 0 | ", "no 5 shape 1"),
    ]),
    ("Ours: what no nearest is", &[
        ("nearest | | 0 0 | 65536", "unreadable: not a name"),
        ("nearest | | 0 0 | 1 2", "unreadable: wrong count of numbers"),
        ("nearest | | @65536 0 0 | ", "unreadable: not a floor"),
        ("nearest | | 0 0", "no 20"),
    ]),
    ("Ours: the narrowest gap between three posts, as they are and grown by a cart of 1 mm, 3 mm and 10 mm", &[
        ("gap | 0D000100070000000000000000005A0D00010008000A000000000000005A0D00010009000D000000000000005A \
          | 0 0", "ok 8 9 cc 0 0 9 3 @0"),
        ("gap | 0D000100070000000000000000005A0D00010008000A000000000000005A0D00010009000D000000000000005A \
          | 5 5", "ok 8 9 cc 0 0 9 3 @0"),
        ("gap | 0D000100070000000000000000005A0D00010008000A000000000000005A0D00010009000D000000000000005A \
          | 0 0 1 0", "ok 8 9 cc 1 0 4 2 @0"),
        ("gap | 0D000100070000000000000000005A0D00010008000A000000000000005A0D00010009000D000000000000005A \
          | 0 0 3 0", "ok 8 9 0 @0"),
        ("gap | 0D000100070000000000000000005A0D00010008000A000000000000005A0D00010009000D000000000000005A \
          | 0 0 10 0", "ok 7 8 0 @0"),
        ("gap | 0D00010007000A000000000000005A0D0001000800F6FFFFFF000000005A0D000100070014000000000000005A \
          | 0 0", "ok 8 7 cc 0 0 900 30 @0"),
        ("gap | 0D00010007000A000000000000005A0D0001000800F6FFFFFF000000005A0D00010009001E000000000000005A \
          | 0 0", "ok 7 8 cc 0 0 400 20 @0"),
    ]),
    ("Ours: a gap is refused 1 to 5 of the cart, 15, 20 if there are fewer than two, then 7", &[
        ("gap | 0D00010007000A000000000000005A0D0001000800F6FFFFFF000000005A0F0002000700010000000000000000005A \
          | 0 0", "no 20"),
        ("gap | 0D00010007000A000000000000005A0D0001000800F6FFFFFF000000005A0F0002000700010000000000000000005A \
          | @1 0 0", "no 20"),
        ("gap | 0D000100080040420F00000000005A | -1 0", "no 20"),
        ("gap | 0D000100070000000000000000005A0D000100080040420F00000000005A | -1 0", "no 7"),
        ("gap | 0D000100070000000000000000005A0D000100080040420F00000000005A \
          | 1 0", "ok 7 8 cc 0 0 1000000000000 1000000 @0"),
        ("gap | 01005A | 0 0", "no 15 place 0"),
        ("gap | 01005A | 1 1 0 0", "no 5 shape 1"),
        ("gap | ", "unreadable: missing field"),
        ("gap | | 0 0 | 7", "unreadable: too many fields"),
    ]),
    ("Ours: the first of two posts that a straight drive meets; none if it ends before them", &[
        ("drive | 0D00010007000A000000000000005A0D0001000800F6FFFFFF000000005A | 0 0 | 0 0 | 20 0", "ok 7 1 2 10 @0"),
        ("drive | 0D00010007000A000000000000005A0D0001000800F6FFFFFF000000005A \
          | 0 0 | 0 0 | -20 0", "ok 8 1 2 10 @0"),
        ("drive | 0D00010007000A000000000000005A0D0001000800F6FFFFFF000000005A \
          | 0 0 | 20 0 | -20 0", "ok 7 1 4 10 @0"),
        ("drive | 0D00010007000A000000000000005A0D0001000800F6FFFFFF000000005A \
          | 0 0 | -20 0 | 20 0", "ok 8 1 4 10 @0"),
        ("drive | 0D00010007000A000000000000005A0D0001000800F6FFFFFF000000005A | 0 0 | 0 0 | 9 0", "ok never @0"),
        ("drive | 0D00010007000A000000000000005A0D0001000800F6FFFFFF000000005A | 0 0 | 0 1 | 20 1", "ok never @0"),
        ("drive | 0D00010007000A000000000000005A0D0001000800F6FFFFFF000000005A \
          | 0 0 | 10 0 | -10 0", "ok 7 0 1 0 @0"),
        ("drive | 0D00010007000A000000000000005A0D0001000800F6FFFFFF000000005A | 3 0 | 0 0 | 14 0", "ok 7 1 2 7 @0"),
    ]),
    ("Ours: a cart of 20 mm meets both posts at once: the first in the log, by the latest records", &[
        ("drive | 0D00010007000A000000000000005A0D0001000800F6FFFFFF000000005A \
          | -10 0 10 0 | 0 -5 | 0 5", "ok 7 1 2 5 @0"),
        ("drive | 0D00010007000A000000000000005A0D0001000800F6FFFFFF000000005A \
          | -10 0 10 0 | 1 -5 | 1 5", "ok 7 1 2 5 @0"),
        ("drive | 0D00010007000A000000000000005A0D0001000800F6FFFFFF000000005A \
          | -10 0 10 0 | -1 -5 | -1 5", "ok 8 1 2 5 @0"),
        ("drive | 0D00010007000A000000000000005A0D0001000800F6FFFFFF000000005A0D000100070014000000000000005A \
          | -20 0 20 0 | 5 -5 | 5 5", "ok 8 1 2 5 @0"),
        ("drive | 0D00010007000A000000000000005A0D0001000800F6FFFFFF000000005A0D000100070014000000000000005A \
          | -20 0 20 0 | 11 -5 | 11 5", "ok 7 1 2 5 @0"),
        ("drive | 0D00010007000A000000000000005A0D0001000800F6FFFFFF000000005A0D000100070014000000000000005A \
          | 0 0 | 0 0 | 40 0", "ok 7 1 2 20 @0"),
    ]),
    ("Ours: a drive sees the shapes of its floor alone", &[
        ("drive | 0D00010007000A000000000000005A0D0001000800F6FFFFFF000000005A0F0002000700010000000000000000005A \
          | 0 0 | 0 0 | 20 0", "ok never @0"),
        ("drive | 0D00010007000A000000000000005A0D0001000800F6FFFFFF000000005A0F0002000700010000000000000000005A \
          | @1 0 0 | 4 0 | -4 0", "ok 7 1 2 4 @1"),
        ("drive | 0D00010007000A000000000000005A0D0001000800F6FFFFFF000000005A0F0002000700010000000000000000005A \
          | @2 0 0 | 4 0 | -4 0", "no 20"),
    ]),
    ("Ours: a drive is refused 1 to 5 of the cart, 15, 20, 3 of a place, the second list or the third, then 7", &[
        ("drive | 01005A | 0 | 1000001 0 | 0 0", "no 1 shape 1"),
        ("drive | 01005A | 1 1 0 0 | 0 0 | 0 0", "no 5 shape 1"),
        ("drive | 01005A | 0 0 | 1000001 0 | 0 0", "no 15 place 0"),
        ("drive | | 0 0 | 1000001 0 | 0 0", "no 20"),
        ("drive | 0D000100080040420F00000000005A | -1 0 | 0 1000001 | -1000001 0", "no 3 shape 2"),
        ("drive | 0D000100080040420F00000000005A | -1 0 | 0 1000000 | -1000001 0", "no 3 shape 3"),
        ("drive | 0D000100080040420F00000000005A | -1 0 | 0 1000000 | -1000000 0", "no 7"),
        ("drive | 0D000100080040420F00000000005A | 1 0 | 0 0 | 1000000 0", "ok 8 999999 1000000 999999 @0"),
    ]),
    ("Ours: what no drive past the shapes of a log is", &[
        ("drive | | 0 0 | 0 0", "unreadable: missing field"),
        ("drive | | 0 0 | 0 | 0 0", "unreadable: wrong count of numbers"),
        ("drive | | 0 0 | 0 0 | 0 0 0", "unreadable: wrong count of numbers"),
        ("drive | | 0 0 | 0 0 | 0 0 |", "unreadable: too many fields"),
        ("drive | 0 | 0 0 | 0 0 | 0 0", "unreadable: not bytes"),
    ]),
];
