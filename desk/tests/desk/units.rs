//! Units and decimals: read exactly, or refused 18.
use crate::json;
use crate::running::{Folder, asked, with_input};
use desk::unit::{Inexact, Unit};

#[test]
fn decimals_of_a_unit() {
    let map = "unit m\nshape | bed | @2 0 0 2 0 2.0 0.9 0 .9\nshape | bed | @2 0 0 2 0 2.0 0.9 0 0.90\n\
               clearance | bed | @2 -1.25 0\nunit cm\nat | bed | 0.1 -12.5\nunit | mm\nlength | @2 0 0 3 4.0\n";
    let ran = asked(map);
    assert_eq!(
        ran.output,
        "-:4: bed and the point (-1250, 0) are 1.25 m apart, between corner (0, 0) of bed and the point (-1250, 0)\n\
         -:6: bed at (1, -125) is a shape of 4 corners on floor 2: (1, -125) (2001, -125) (2001, 775) (1, 775)\n\
         -:8: the segment (0, 0) to (3, 4) is 5 mm long, from (0, 0) to (3, 4)\n",
        "{ran:?}"
    );
    assert_eq!(
        ran.errors,
        "cocklesway: -:2: `.9` is not a whole number of millimetres\n"
    );
}

#[test]
fn a_length_that_is_not_whole_is_refused() {
    for (map, said) in [
        (
            "shape | a | 0 1.5",
            "-:1: `a` is refused (18): `1.5` mm is no whole number of millimetres\n",
        ),
        (
            "unit m\nshape | a | 0 0.0005",
            "-:2: `a` is refused (18): `0.0005` m is no whole number of millimetres\n",
        ),
        (
            "unit cm\njudge | 0 -0.05",
            "-:2: refused (18): `-0.05` cm is no whole number of millimetres\n",
        ),
        (
            "contact | 0 0 | 1 1 | 0 0.5 | 1 1",
            "-:1: refused (18): `0.5` mm is no whole number of millimetres\n",
        ),
        (
            "at | 0 0 | 0.25 1",
            "-:1: refused (18): `0.25` mm is no whole number of millimetres\n",
        ),
    ] {
        let ran = asked(map);
        assert_eq!((ran.status, ran.output.as_str()), (1, said), "{ran:?}");
    }
    let ran = with_input(&["ask", "--json", "-"], b"shape | a | 0 1.5\njudge | a\n");
    let lines: Vec<&str> = ran.output.lines().collect();
    assert!(
        lines[0]
            .contains(r#""name":"a","refused":{"number":18,"reason":"`1.5` mm is no whole number"#),
        "{ran:?}"
    );
    assert!(lines[1].contains("not_asked"), "{ran:?}");
    lines
        .iter()
        .for_each(|line| drop(json::read(line).expect(line)));
}

/// Numbers that are no lengths have no unit.
#[test]
fn floors_directions_and_counts_have_no_unit() {
    let ran = asked("unit m\nfurthest | @2 0 0 1 0 | 1 0\nmirror | @2 0 0 | 2\n");
    assert_eq!(
        ran.output,
        "-:2: in direction (1, 0) the furthest corner of the segment (0, 0) to (1000, 0) is (1000, 0), where 1·x + \
         0·y is 1000\n-:3: the mirror image of the point (0, 0) is a point on floor 2 at (0, 0)\n",
        "{ran:?}"
    );
    let ran = asked("unit m\nfurthest | 0 0 | 1.0 0\n");
    assert_eq!(
        ran.errors,
        "cocklesway: -:2: `1.0` is not a whole number of millimetres\n"
    );
}

/// After a unit that cannot be read no length is read: it would be of another size.
#[test]
fn an_unknown_unit_stops_lengths() {
    for line in ["unit ft", "unit", "unit m m", "unit | m | m", "unit M"] {
        let ran = asked(&format!("{line}\nshape | a | 0 0\nrelation | a | 0 0\n"));
        assert_eq!(
            (ran.status, ran.output.as_str()),
            (2, "-:3: not asked: `a` was refused at -:2\n"),
            "{ran:?}"
        );
        assert!(
            ran.errors
                .contains("is no unit: write `unit mm`, `unit cm` or `unit m`"),
            "{ran:?}"
        );
        assert!(
            ran.errors
                .contains("-:2: its unit is not known: a line `unit` before it cannot be read"),
            "{ran:?}"
        );
    }
    let mended = asked("unit ft\nunit m\nlength | 0 0 1 0\n");
    assert!(mended.output.contains("is 1 m long"), "{mended:?}");
}

/// A unit is that of its file.
#[test]
fn a_unit_ends_with_its_file() {
    let folder = Folder::new();
    let map = folder.file("map.txt", "unit m\nshape | a | 0 0 1 0\n");
    let ran = with_input(&["ask", &map, "-"], b"clearance | a | 1001 0\n");
    assert!(ran.output.contains("are 1 mm apart"), "{ran:?}");
}

/// Every decimal of three digits is the number of millimetres that its digits say.
#[test]
fn decimals_are_exact() {
    for number in -20_000_i32..=20_000 {
        let sign = if number < 0 { "-" } else { "" };
        let size = number.unsigned_abs();
        let metres = format!("{sign}{}.{:03}", size / 1000, size % 1000);
        assert_eq!(Unit::Metre.millimetres(&metres), Ok(number), "{metres}");
        assert_eq!(Unit::Metre.millimetres(&format!("{metres}000")), Ok(number));
        assert_eq!(
            Unit::Metre.millimetres(&format!("{metres}1")),
            Err(Inexact::NotWhole)
        );
        let exponent = format!("{number}e-3");
        assert_eq!(
            Unit::Metre.millimetres_of_exponent(&exponent),
            Ok(number),
            "{exponent}"
        );
        assert_eq!(
            Unit::Millimetre.millimetres(&number.to_string()),
            Ok(number)
        );
    }
}

/// Words that are no number of metres, and why.
#[rustfmt::skip]
const INEXACT: &[(&str, Inexact)] = &[
    ("2147484", Inexact::Large), ("99999999999999999999999", Inexact::Large), ("", Inexact::NotANumber),
    ("-", Inexact::NotANumber), ("1.", Inexact::NotANumber), (".5", Inexact::NotANumber),
    ("1..5", Inexact::NotANumber), ("--1", Inexact::NotANumber), ("1.5.0", Inexact::NotANumber),
    ("+1", Inexact::NotANumber), ("NaN", Inexact::NotANumber), ("1e3", Inexact::NotANumber),
];

#[test]
fn words_that_are_no_lengths() {
    for (text, why) in INEXACT.iter().copied() {
        assert_eq!(Unit::Metre.millimetres(text), Err(why), "{text}");
    }
    let read = |text| Unit::Metre.millimetres_of_exponent(text);
    for text in ["1e", "1e+", "e5", "1e5.0", "1e--5"] {
        assert_eq!(read(text), Err(Inexact::NotANumber), "{text}");
    }
    for text in ["1e400", "1e999999999999", "1e9"] {
        assert_eq!(read(text), Err(Inexact::Large), "{text}");
    }
}
