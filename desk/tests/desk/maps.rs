//! Map files: how lines are written, and what becomes of names.
use crate::running::{Folder, Ran, asked, with_input};

#[track_caller]
fn holds(ran: &Ran, status: u8, output: &[&str], errors: &[&str]) {
    let lines = |text: &str| text.lines().map(str::to_string).collect::<Vec<String>>();
    assert_eq!(lines(&ran.output), output, "{ran:?}");
    assert_eq!(lines(&ran.errors), errors, "{ran:?}");
    assert_eq!(ran.status, status, "{ran:?}");
}

const STORE: &str = "shape | store | @2 0 0 12 0 12 8 0 8\n";

#[test]
fn floors_are_written_as_numbers_are() {
    let point = "is a point on floor";
    holds(
        &asked("judge | @-0 1 1\njudge | @007 1 1"),
        0,
        &[
            &format!("-:1: this {point} 0"),
            &format!("-:2: this {point} 7"),
        ],
        &[],
    );
    let errors = ["@-1", "@@2", "@", "@+2"].map(|floor| {
        let error = "is no floor: floors are @0 to @65535";
        (floor, format!("cocklesway: -:1: `{floor}` {error}"))
    });
    for (floor, error) in errors {
        holds(&asked(&format!("judge | {floor} 1 1")), 2, &[], &[&error]);
    }
}

#[test]
fn an_outline_is_asked_on_any_floor_of_a_log() {
    let map = format!(
        "outline | cart | 0 0 2 0\n{STORE}nearest | {0} | @2 cart\ngap | {0}{1} | @2 cart\nnearest | {0} | cart\n\
         nearest | {0} | @2 store\n",
        "0F0002000700020001000000FFFFFFFF5A", "0F0002000800020009000000FFFFFFFF5A"
    );
    holds(
        &asked(&map),
        2,
        &[
            "-:3: record 7 is nearest to cart on floor 2: 1 mm, between record 7 at (1, -1) and edge (0, 0) to (2, 0) \
             of cart",
            "-:4: records 7 and 8 have the narrowest gap on floor 2, grown by cart: 6 mm, between corner (1, -1) of \
             grown record 7 and corner (7, -1) of grown record 8",
            "-:5: refused (20): the log has no shape on floor 0",
        ],
        &[
            "cocklesway: -:6: `store` is not a number; a name must be alone in its field, \
             and it brings its floor along",
        ],
    );
}

#[test]
fn a_drive_is_told_by_its_way() {
    let map = format!(
        "{STORE}outline | cart | 0 0 2 0\ncontact | store | cart | -8 4 | 20 4\ncontact | store | cart | -8 9 | 20 9\n\
         contact | store | cart | 4 4 | 9 4\ncontact | store | cart | -8 -6 | 4 4\n"
    );
    holds(
        &asked(&map),
        0,
        &[
            "-:3: cart meets store after 6 mm, at 3/14 of the way from (-8, 4) to (20, 4)",
            "-:4: cart is clear of store all the way from (-8, 9) to (20, 9)",
            "-:5: cart meets store where it begins its way from (4, 4) to (9, 4)",
            "-:6: cart meets store after 9 mm (rounded down), at 3/5 of the way from (-8, -6) to (4, 4)",
        ],
        &[],
    );
}

#[test]
fn a_drive_past_a_log_names_the_first_record() {
    let log = "0F0002000700020001000000FFFFFFFF5A 0F0002000800020009000000FFFFFFFF5A";
    let map = format!(
        "outline | cart | 0 0 2 0\ndrive | {log} | @2 cart | -9 -1 | 11 -1\ndrive | {log} | @2 cart | 19 -1 | -1 -1\n\
         drive | {log} | @2 cart | -9 0 | 11 0\ndrive | {log} | @2 cart | 8 -1 | 9 9\n\
         drive | {log} | cart | 0 0 | 1 1\ndrive | {log} | @2 cart | 0 0 | 1000001 1\n\
         drive | {log} | @2 999999 0 | 0 0 | 1 1\ndrive | {log} | @2 -999999 0 | 0 0 | 1 1\n"
    );
    holds(
        &asked(&map),
        1,
        &[
            "-:2: record 7 is the first that cart meets on floor 2: after 8 mm, at 2/5 of the way from (-9, -1) to \
             (11, -1)",
            "-:3: record 8 is the first that cart meets on floor 2: after 10 mm, at 1/2 of the way from (19, -1) to \
             (-1, -1)",
            "-:4: cart is clear of all shapes on floor 2 all the way from (-9, 0) to (11, 0)",
            "-:5: record 8 is the first that cart meets on floor 2: where it begins its way from (8, -1) to (9, 9)",
            "-:6: refused (20): the log has no shape on floor 0",
            "-:7: refused (3): the place (1000001, 1) is out of range: coordinates go from -1000000 to 1000000 mm",
            "-:8: the point (999999, 0) is clear of all shapes on floor 2 all the way from (0, 0) to (1, 1)",
            "-:9: refused (7): record 8 grown by the point (-999999, 0) would reach x = 1000008; coordinates go from \
             -1000000 to 1000000 mm",
        ],
        &[],
    );
}

#[test]
fn a_ring_is_kept_as_a_shape() {
    let map = "bed = ring | @2 0 8 12 8 12 0 6 0 0 0 0 8\njudge | bed\nbox | bed\n\
               greatest | bed | @2 16 8\nring | 3 1 3 1\nring | 0 0 4 0 1 1 0 4\nbox | 0 0 2 1\nring | 0 0 1\n";
    holds(
        &asked(map),
        1,
        &[
            "-:1: bed is a shape of 4 corners on floor 2: (0, 0) (12, 0) (12, 8) (0, 8)",
            "-:2: bed is a shape of 4 corners on floor 2",
            "-:3: the least box about bed is 12 mm along its edge (0, 0) to (12, 0) and 8 mm across it",
            "-:4: the greatest distance of bed and the point (16, 8) is 17 mm (rounded down), between corner (0, 0) of \
             bed and the point (16, 8)",
            "-:5: the shape of this ring is a point on floor 0 at (3, 1)",
            "-:6: refused (4): the shape of 4 corners from (0, 0) is no convex ring: after (4, 0) it turns in or back \
             at (1, 1), or begins to go round again there",
            "-:7: refused (10): the segment (0, 0) to (2, 1) is a segment and has no box",
            "-:8: refused (1): the list has 3 numbers; each point needs two, x and y",
        ],
        &[],
    );
}

#[test]
fn comments_and_continued_lines() {
    let map = "  # indented\nshape | store | @2 0 0 # begun\n\t# between\n  + 12 0 12 8\n+0 8 # ended\n\njudge | store";
    holds(
        &asked(map),
        0,
        &["-:7: store is a shape of 4 corners on floor 2"],
        &[],
    );
    let continued = "shape | store\n+ | @2 0 0\n+ 1 1\nlength | store";
    holds(
        &asked(continued),
        0,
        &["-:4: store is 1 mm (rounded down) long, from (0, 0) to (1, 1)"],
        &[],
    );
}

#[test]
fn a_plus_needs_a_line_before_it() {
    let error = "cocklesway: -:1: `+` continues the line before it, and there is none";
    holds(&asked("+ 0 0 1 0"), 2, &[], &[error]);
    let errors = [
        "cocklesway: -:1: the line may not be whole, and is left out: line 3 has numbers left over",
        "cocklesway: -:3: `+` continues the line before it, and there is none",
    ];
    holds(&asked(&format!("{STORE}\n+ 0 9")), 2, &[], &errors);
}

#[test]
fn left_over_numbers_name_the_shape_before() {
    let map = "shape | store | @2 0 0 12 0\n12 8 0 8\njudge | store\n";
    let errors = [
        "cocklesway: -:1: the line may not be whole, and is left out: line 2 has numbers left over",
        "cocklesway: -:2: there are numbers left over on a line of their own after `store` (-:1); \
         begin this line with + if they are its corners",
    ];
    holds(
        &asked(map),
        2,
        &["-:3: not asked: `store` was refused at -:1"],
        &errors,
    );
}

#[test]
fn names_of_any_script() {
    let map =
        "shape | Wäschekammer | 0 0\nshape | 倉庫_2 | 3 4\nclearance | Wäschekammer | 倉庫_2\n";
    let said = "-:3: Wäschekammer and 倉庫_2 are 5 mm apart, between Wäschekammer at (0, 0) and 倉庫_2 at (3, 4)";
    holds(&asked(map), 0, &[said], &[]);
}

#[test]
fn an_outline_takes_the_floor_of_the_question() {
    let map =
        format!("{STORE}outline | cart | 0 0 6 0 6 9 0 9\ng = grow | store | cart\nwidth | cart\n");
    let said = [
        "-:3: g is a shape of 4 corners on floor 2: (-6, -9) (12, -9) (12, 8) (-6, 8)",
        "-:4: cart is 6 mm wide, from (6, 9) to the line of its edge (6, 0) to (6, 9)",
    ];
    let ran = asked(&map);
    assert_eq!(ran.status, 0, "{ran:?}");
    assert_eq!(ran.output.lines().next(), Some(said[0]));
    assert!(ran.output.contains("-:4: cart is 6 mm wide"), "{ran:?}");
    let both = "outline | a | 0 0\nx = sum | a | a\nshape | s | @7 5 5\nrelation | x | s\n";
    assert_eq!(asked(both).status, 0);
    let error = "cocklesway: -:1: an outline has no floor, it takes that of the question; \
                 a shape on a floor begins with `shape`";
    holds(&asked("outline | cart | @2 0 0"), 2, &[], &[error]);
}

#[test]
fn a_moved_outline_is_on_the_floor_of_its_place() {
    let map = "outline | bed | 0 0 20 0 20 9 0 9\nbed-1 = at | bed | @3 100 100\nbed-2 = at | bed-1 | 1 1\n\
               bed-3 = at | bed-1 | @4 1 1\n";
    let said = [
        "-:2: bed-1 is a shape of 4 corners on floor 3: (100, 100) (120, 100) (120, 109) (100, 109)",
        "-:3: bed-2 is a shape of 4 corners on floor 3: (101, 101) (121, 101) (121, 110) (101, 110)",
        "-:4: `bed-3` is refused (13): bed-1 is on floor 3 and the point (1, 1) is on floor 4",
    ];
    holds(&asked(map), 1, &said, &[]);
}

#[test]
fn a_refused_correction_removes_the_name() {
    let map = format!(
        "{STORE}shape | store | @2 0 0 12 0 12\njudge | store\ng = mirror | store\nlength | g\n"
    );
    let said = [
        "-:2: `store` is refused (1): store has 5 numbers; each corner needs two, x and y",
        "-:3: not asked: `store` was refused at -:2",
        "-:4: `g` is refused: `store` was refused at -:2",
        "-:5: not asked: `g` was refused at -:4",
    ];
    holds(&asked(&map), 1, &said, &[]);
    let mended = format!("shape | store | 0\n{STORE}judge | store\n");
    let said = [
        "-:1: `store` is refused (1): store has 1 number; each corner needs two, x and y",
        "-:3: store is a shape of 4 corners on floor 2",
    ];
    holds(&asked(&mended), 1, &said, &[]);
}

#[test]
fn an_unreadable_correction_removes_the_name() {
    for line in [
        "shape | store | @2 0 0 1O 0",
        "shape | store",
        "shape | store | 0 0 | 4",
        "store = grwo | store | store",
        "store = relation | store | store",
        "store = grow | store",
        "shape | store | 0 0 \u{1b}",
        "outline | store | @2 0 0",
    ] {
        let ran = asked(&format!("{STORE}{line}\njudge | store\n"));
        assert_eq!(
            ran.output, "-:3: not asked: `store` was refused at -:2\n",
            "{line}: {ran:?}"
        );
        assert_eq!(ran.status, 2, "{line}");
    }
    let bytes = [
        STORE.as_bytes(),
        b"shape | store | 0 0 \xff\njudge | store\n",
    ]
    .concat();
    let ran = with_input(&["ask", "-"], &bytes);
    let error = "cocklesway: -:2: byte 0xFF at character 21 is not UTF-8";
    holds(
        &ran,
        2,
        &["-:3: not asked: `store` was refused at -:2"],
        &[error],
    );
}

#[test]
fn a_correction_in_the_same_file_is_told() {
    let map = format!("{STORE}shape | store | @2 1 1 5 1 5 5\njudge | store\n");
    let said = [
        "-:2: store is a shape of 3 corners on floor 2, in place of the one of -:1",
        "-:3: store is a shape of 3 corners on floor 2",
    ];
    holds(&asked(&map), 0, &said, &[]);
}

#[test]
fn two_maps_are_not_mixed() {
    let folder = Folder::new();
    let old = folder.file(
        "old.txt",
        &format!("{STORE}shape | bed | @2 50 50 60 50 60 60\n"),
    );
    let new = folder.file(
        "new.txt",
        "shape | store | @2 0 0 20 0 20 8 0 8\nshape | store | @2 0 0\njudge | store\n",
    );
    let error = format!(
        "cocklesway: {new}:1: `store` is already defined at {old}:1, in another file; \
         ask each map by itself, or give the shape another name"
    );
    for command in ["ask", "check", "draw"] {
        holds(&with_input(&[command, &old, &new], b""), 2, &[], &[&error]);
    }
    let questions = folder.file("ask.txt", "other = mirror | store\nlength | bed\n");
    assert_eq!(with_input(&["ask", &old, &questions], b"").status, 0);
    assert_eq!(with_input(&["ask", &old, &old], b"").status, 2);
}

#[test]
fn errors_tell_file_line_and_word() {
    let error = |line: &str| {
        let ran = asked(line);
        assert_eq!((ran.status, ran.output.as_str()), (2, ""), "{ran:?}");
        let error = ran
            .errors
            .strip_prefix("cocklesway: -:1: ")
            .unwrap_or_else(|| panic!("{ran:?}"));
        error.trim_end().to_string()
    };
    assert_eq!(
        error("rotate | 0 0"),
        "`rotate` is no word that begins a line"
    );
    assert_eq!(
        error("realtion | 0 0"),
        "`realtion` is no word that begins a line (did you mean `relation`?)"
    );
    assert_eq!(error("| 0 0"), "the line has no word before its first bar");
    assert_eq!(
        error("judge | 0 O"),
        "`O` is not a number; a name must be alone in its field, and it brings its floor along"
    );
    assert_eq!(
        error("judge | 0 1,5"),
        "`1,5` is not a whole number of millimetres"
    );
    assert_eq!(
        error("judge | 0 +5"),
        "`+5` is not a whole number of millimetres"
    );
    assert_eq!(
        error("judge | 0 4294967296"),
        "`4294967296` is not in 32 bits; coordinates go from -1000000 to 1000000 mm"
    );
    assert_eq!(
        error("judge | @65536 0 0"),
        "`@65536` is no floor: floors are @0 to @65535"
    );
    assert_eq!(
        error("judge | 0 0 @2"),
        "the floor `@2` must be before all numbers of its field"
    );
    assert_eq!(
        error("judge"),
        "`judge` needs one more field: shape (fields are separated by |)"
    );
    assert_eq!(
        error("sum | 0 0"),
        "`sum` needs one more field: another shape (fields are separated by |)"
    );
    assert_eq!(
        error("judge | 0 0 | 5"),
        "`judge` has at most 1 field, and here are more"
    );
    assert_eq!(
        error("width | store"),
        "no shape before this line is called `store`"
    );
    assert_eq!(
        error("d = relation | 0 0 | 1 1"),
        "`relation` answers no shape, so its answer can have no name"
    );
    assert_eq!(
        error("2-3 = mirror | 0 0"),
        "`2-3` is no name: a name has a letter or _, a number has none"
    );
    assert_eq!(
        error("shape | a.b | 0 0"),
        "`a.b` is no name: a name has letters, digits, - and _, and no `.`"
    );
    assert_eq!(
        error("judge | \u{1b}[31m"),
        "there is a control character `\\u{1b}` at character 9"
    );
    assert_eq!(
        error("judge | 5\u{a0}6"),
        "`5\\u{a0}6` is no name: a name has letters, digits, - and _, and no `\\u{a0}`"
    );
    assert_eq!(
        error("furthest | 0 0 | 1"),
        "the field holds a direction: two numbers, and here it has 1 word"
    );
    assert_eq!(error("mirror | 0 0 | -1"), "`-1` is not a count");
    assert_eq!(
        error("at | 0 0 | 1 2 3"),
        "the field holds a place: x and y, and here it has 3 words"
    );
    assert_eq!(
        error("tablet | cm 0x0000000000000000 | mm 0x0000000000000000"),
        "`cm` is not mm or e8"
    );
    assert_eq!(
        error("bookread | 0 | 7"),
        "`0` is not pairs of hexadecimal digits"
    );
    assert_eq!(
        error("parts | 0 0 | 0 0 | 2"),
        "`2` is not a call, such as 2:4"
    );
}
