//! Cases of the log (document 02, W5 and W11), worked out by hand from its words; the logs that cut additions
//! leave follow from the order of stores that was decided.

use super::Stated;

#[rustfmt::skip]
pub const LOG: &[Stated] = &[
    ("W5: the ticket's record, written as W11 says, in a new log at several allowances", &[
        ("bookadd | 0000000000000000000000000000000000000000 | 7 | 1 -1 | 0",
            "ok cut | 0000000000000000000000000000000000000000"),
        ("bookadd | 0000000000000000000000000000000000000000 | 7 | 1 -1 | 5",
            "ok cut | 0F00020007000000000000000000000000000000"),
        ("bookadd | 0000000000000000000000000000000000000000 | 7 | 1 -1 | 16",
            "ok cut | 0F0002000700000001000000FFFFFFFF00000000"),
        ("bookadd | 0000000000000000000000000000000000000000 | 7 | 1 -1 | 17",
            "ok finished | 0F0002000700000001000000FFFFFFFF5A000000"),
        ("bookadd | 0000000000000000000000000000000000000000 | 7 | 1 -1 | 40",
            "ok finished | 0F0002000700000001000000FFFFFFFF5A000000"),
        ("bookadd | 0000000000000000000000000000000000000000 | 7 | 1 -1",
            "ok finished | 0F0002000700000001000000FFFFFFFF5A000000"),
    ]),
    ("W5: read back by its name; 19 before 8", &[
        ("bookread | 0D 00 01 00 07 00 01 00 00 00 FF FF FF FF 5A | 7", "ok 1 @0 | 1 -1"),
        ("bookread | 0d000100070001000000ffffffff5a0000000000 | 7 | 2", "ok 1 @0 | 1 -1"),
        ("bookread | 0D000100070001000000FFFFFFFF5A0000000000 | 7 | 1", "no 8"),
        ("bookread | 0D000100070001000000FFFFFFFF5A0000000000 | 8 | 1", "no 19"),
        ("bookread | 0D000100070001000000FFFFFFFF000000000000 | 7", "no 19"),
        ("bookread | | 7", "no 19"),
    ]),
    ("W5: the latest record of a name counts, and older ones keep their room", &[
        ("bookadd | 0D000100070001000000FFFFFFFF5A0000000000000000000000000000000000 | 7 | 2 3",
            "ok finished | 0D000100070001000000FFFFFFFF5A0F0002000700000002000000030000005A"),
        ("bookread | 0D000100070001000000FFFFFFFF5A0F0002000700000002000000030000005A | 7", "ok 1 @0 | 2 3"),
        ("bookread | 0D000100070001000000FFFFFFFF5A150001000800000000000000000002000000000000005A | 7",
            "ok 1 @0 | 1 -1"),
        ("bookread | 0D000100070001000000FFFFFFFF5A150001000800000000000000000002000000000000005A | 8",
            "ok 2 @0 | 0 0 2 0"),
    ]),
    ("W5: a torn end is cleared from its far end, and its bytes are room", &[
        ("bookadd | 0D000100070001000000FFFFFFFF000000 | 7 | 1 -1 | 7", "ok cut | 0D00000000000000000000000000000000"),
        ("bookadd | 0D000100070001000000FFFFFFFF000000 | 7 | 1 -1 | 8", "ok cut | 0000000000000000000000000000000000"),
        ("bookadd | 0D000100070001000000FFFFFFFF000000 | 7 | 1 -1 | 24", "ok cut | 0F0002000700000001000000FFFFFFFF00"),
        ("bookadd | 0D000100070001000000FFFFFFFF000000 | 7 | 1 -1 | 25",
            "ok finished | 0F0002000700000001000000FFFFFFFF5A"),
    ]),
    ("W5: what ends a log: length 0, one byte, past the end, no last byte", &[
        ("bookread | 0D000100070001000000FFFFFFFF5A00000D000100070002000000030000005A | 7", "ok 1 @0 | 1 -1"),
        ("bookread | 0D000100070001000000FFFFFFFF5A0D | 7", "ok 1 @0 | 1 -1"),
        ("bookread | 0D000100070001000000FFFFFFFF5A0D0001 | 7", "ok 1 @0 | 1 -1"),
        ("bookread | 0D000100070001000000FFFFFFFF5A0D000100070002000000030000005B | 7", "ok 1 @0 | 1 -1"),
    ]),
    ("W5: 15 with the place of the first bad record, before 19, after 1 to 5", &[
        ("bookread | 0D000100070001000000FFFFFFFF5A01005A | 9", "no 15 place 15"),
        ("bookread | 0D000100070001000000FFFFFFFF5A0500010007005A02005A5A | 9", "no 15 place 15"),
        ("bookread | 0D000100070001000000FFFFFFFF5A0D000100070002000000030000005A0D000200070002000000030000005A | 7",
            "no 15 place 30"),
        ("bookread | 150001000800000000000000000000000000000000005A0D000100070001000000FFFFFFFF5A | 7",
            "no 15 place 0"),
        ("bookadd | 01005A0000000000000000000000000000000000000000 | 7 | 1 -1 | 0", "no 15 place 0"),
        ("bookadd | 01005A0000000000000000000000000000000000000000 | 7 | 1 | 0", "no 1 shape 1"),
    ]),
    ("W5: 16 if the room is too short by one byte, after 1 to 5 and 15", &[
        ("bookadd | 00000000000000000000000000000000 | 7 | 1 -1 | 99", "no 16"),
        ("bookadd | 0D000100070001000000FFFFFFFF5A00000000000000000000000000000000 | 7 | 1 -1 | 0", "no 16"),
        ("bookadd | 01005A | 7 | 1 -1 | 0", "no 15 place 0"),
        ("bookadd | | 7 | 1 0 0 0 | 0", "no 5 shape 1"),
    ]),
    ("W11: kind 2 puts a two-byte floor after the name; kind 1 still reads as floor 0", &[
        ("bookread | 0F0002000700020101000000FFFFFFFF5A | 7", "ok 1 @258 | 1 -1"),
        ("bookread | 0F0002000700FFFF01000000FFFFFFFF5A | 7 | 2", "ok 1 @65535 | 1 -1"),
        ("bookread | 0D000100070001000000FFFFFFFF5A | 7", "ok 1 @0 | 1 -1"),
        ("bookread | 0F0002000700020101000000FFFFFFFF5A0D000100070001000000FFFFFFFF5A | 7", "ok 1 @0 | 1 -1"),
        ("bookread | 0D000100070001000000FFFFFFFF5A0F0002000700020101000000FFFFFFFF5A | 7", "ok 1 @258 | 1 -1"),
        ("bookread | 0F0002000700020101000000FFFFFFFF5A | 7 | 1", "no 8"),
        ("bookread | 0F0002000700020101000000FFFFFFFF5A | 258", "no 19"),
    ]),
    ("W11: writing uses kind 2", &[
        ("bookadd | 0000000000000000000000000000000000 | 7 | @258 1 -1",
            "ok finished | 0F0002000700020101000000FFFFFFFF5A"),
        ("bookadd | 0000000000000000000000000000000000 | 7 | @65535 1 -1 | 8",
            "ok cut | 0F0002000700FFFF000000000000000000"),
        ("bookadd | 0D000100070001000000FFFFFFFF5A0000000000000000000000000000000000 | 7 | @258 1 -1 | 16",
            "ok cut | 0D000100070001000000FFFFFFFF5A0F0002000700020101000000FFFFFFFF00"),
        ("bookadd | 0D000100070001000000FFFFFFFF5A0000000000000000000000000000000000 | 7 | @258 1 -1 | 17",
            "ok finished | 0D000100070001000000FFFFFFFF5A0F0002000700020101000000FFFFFFFF5A"),
        ("bookadd | 00000000000000000000000000000000 | 7 | @258 1 -1", "no 16"),
        ("bookadd | 0000000000000000000000000000000000 | 7 | @258 1 -1 0", "no 1 shape 1"),
        ("bookadd | 0000000000000000000000000000000000 | 7 | @65536 1 -1", "unreadable: not a floor"),
    ]),
    ("W11: in refusal 15 another kind is one other than 1 and 2; each kind has its own lengths", &[
        ("bookread | 0D000100070001000000FFFFFFFF5A0F0003000700020101000000FFFFFFFF5A | 7", "no 15 place 15"),
        ("bookread | 0D000100070001000000FFFFFFFF5A0F0000000700020101000000FFFFFFFF5A | 7", "no 15 place 15"),
        ("bookread | 0D000100070001000000FFFFFFFF5A0F0002010700020101000000FFFFFFFF5A | 7", "no 15 place 15"),
        ("bookread | 0D000100070001000000FFFFFFFF5A0F0001000700020101000000FFFFFFFF5A | 7", "no 15 place 15"),
        ("bookread | 0F0002000700020101000000FFFFFFFF5A0D000200070001000000FFFFFFFF5A | 7", "no 15 place 17"),
        ("bookread | 0F0002000700020101000000FFFFFFFF5A06000200070002 | 7", "ok 1 @258 | 1 -1"),
        ("bookread | 0F0002000700020101000000FFFFFFFF5A0600020007005A5A | 7", "no 15 place 17"),
        ("bookread | 0F0002000700020101000000FFFFFFFF5A070002000700025A5A | 7", "no 15 place 17"),
        ("bookadd | 0F0002000700020101000000FFFFFFFF5A0600020007005A5A0000000000000000000000000000000000000000 \
          | 7 | 1 -1 | 0", "no 15 place 17"),
    ]),
    ("Ours: packing keeps the latest record of each name, in order, and zeros after them", &[
        ("pack | 0D000100070001000000000000005A0D000100080002000000000000005A0D000100070003000000000000005A0D00 \
          | 0000000000000000000000000000000000000000000000000000000000000000 |",
            "ok finished | 0D000100080002000000000000005A0D000100070003000000000000005A0000"),
        ("pack | 0D000100070001000000000000005A0D000100080002000000000000005A0D000100070003000000000000005A \
          | 000000000000000000000000000000 | 7 | 5", "ok finished | 0D000100080002000000000000005A"),
        ("pack | 0D000100070001000000000000005A0D000100080002000000000000005A0D000100070003000000000000005A \
          | 000000000000000000000000000000 | 8 | 4", "ok cut | 0D0001000700030000000000000000"),
        ("pack | 0D000100070001000000000000005A0D000100080002000000000000005A0D000100070003000000000000005A \
          | 0D0001000700030000000000000000 | 8 | 1", "ok finished | 0D000100070003000000000000005A"),
        ("pack | 0D000100070001000000000000005A | 0D000100070001000000000000005A | | 0",
            "ok finished | 0D000100070001000000000000005A"),
        ("pack | 0D000100070001000000000000005A | FF | 7", "ok finished | 00"),
        ("pack | | | | 0", "ok finished | "),
    ]),
    ("Ours: packing is refused 15 of the old log, then 16", &[
        ("pack | 0D000100070001000000000000005A | 0000000000000000000000000000 |", "no 16"),
        ("pack | 0D000100070001000000000000005A01005A | |", "no 15 place 15"),
    ]),
    ("Ours: what no packing is", &[
        ("pack | | | 65536", "unreadable: not a name"),
        ("pack | | | 1 2", "unreadable: wrong count of numbers"),
        ("pack | | 0 | 7", "unreadable: not bytes"),
        ("pack | |", "unreadable: missing field"),
        ("pack | | | | -1", "unreadable: not a count"),
        ("pack | | | | 1 | 2", "unreadable: too many fields"),
    ]),
];
