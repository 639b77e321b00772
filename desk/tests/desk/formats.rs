//! WKT and `GeoJSON`: what comes in goes out unchanged.
use crate::json;
use crate::running::{Folder, Ran, with_input};

const HOSPITAL: &str = include_str!("hospital.txt");

fn import(text: &str, options: &[&str]) -> Ran {
    with_input(&[&["import", "-"], options].concat(), text.as_bytes())
}

fn export(map: &str, format: &str) -> String {
    let ran = with_input(&["export", "-", "--as", format], map.as_bytes());
    assert_eq!((ran.status, ran.errors.as_str()), (0, ""), "{ran:?}");
    ran.output
}

/// What a check says of a map, without places: names, floors, sizes.
fn checked(map: &str) -> Vec<String> {
    let ran = with_input(&["check", "-"], map.as_bytes());
    assert_eq!(ran.status, 0, "{ran:?}");
    let lines = ran.output.lines().map(|line| {
        let (place, said) = line.split_once(": ").expect("a place");
        if place.starts_with("-:") { said } else { line }.to_string()
    });
    lines.collect()
}

#[test]
fn a_map_goes_out_and_comes_in() {
    let folder = Folder::new();
    let old = folder.file("old.txt", HOSPITAL);
    for format in ["wkt", "geojson"] {
        let out = export(HOSPITAL, format);
        let back = import(&out, &[]);
        assert_eq!((back.status, back.errors.as_str()), (0, ""), "{back:?}");
        assert_eq!(checked(&back.output), checked(HOSPITAL));
        assert_eq!(export(&back.output, format), out);
        let new = folder.file("new.txt", &back.output);
        let same = with_input(&["diff", &old, &new], b"");
        assert_eq!(
            same.output,
            "same: 41, changed: 0, elsewhere: 0, added: 0, removed: 0\n"
        );
    }
    json::read(&export(HOSPITAL, "geojson").replace('\n', "")).expect("JSON");
}

#[test]
fn wkt_as_people_have_it() {
    let text = "# A floor in metres.\nPOINT (1.5 -2)\n\nbed @2 polygon((0 0.9, 2 0.9, 2 0, 1 0, 0 0, 0 0.9))\n\
                wall;LINESTRING(4 1e0,0 1)\noutline cart POLYGON ((0 0, 0.6 0, 0.6 0.9, 0 0.9, 0 0))\n";
    let ran = import(text, &["--unit", "m", "--floor", "7"]);
    assert_eq!(
        ran.output,
        "ring | shape-1 | @7 1500 -2000\nring | bed | @2 0 900 2000 900 2000 0 1000 0 0 0 0 900\n\
         ring | wall | @7 4000 1000 0 1000\noutline | cart | 0 0 600 0 600 900 0 900\n",
        "{ran:?}"
    );
    assert_eq!((ran.status, ran.errors.as_str()), (0, ""));
    let out = export(&ran.output, "wkt");
    assert_eq!(
        out,
        "shape-1 @7 POINT (1500 -2000)\nbed @2 POLYGON ((0 0, 2000 0, 2000 900, 0 900, 0 0))\n\
         wall @7 LINESTRING (0 1000, 4000 1000)\noutline cart POLYGON ((0 0, 600 0, 600 900, 0 900, 0 0))\n"
    );
}

#[test]
fn geojson_as_people_have_it() {
    let feature = r#"{"type":"Feature","id":4,"properties":{"name":"W\u00e4sche-\uD83D","floor":2},"geometry":null}"#;
    assert!(
        import(feature, &[])
            .errors
            .contains("an escape of a text is wrong")
    );
    let text = r#"{
      "type": "FeatureCollection", "name": "plan",
      "features": [
        {"type": "Feature", "properties": {"name": "W\u00e4sche", "floor": 2, "use": ["linen", null, true]},
         "geometry": {"type": "Polygon", "coordinates": [[[3.0, 1], [3, 1.8], [4.2, 1.8], [42e-1, 1], [3, 1]]]}},
        {"type": "Feature", "properties": null, "geometry": {"type": "Point", "coordinates": [0, -0.0]}},
        {"type": "Feature", "properties": {"name": "cart", "floor": null},
         "geometry": {"type": "LineString", "coordinates": [[0, 0], [0.6, 0]]}}
      ]}"#;
    let ran = import(text, &["--unit", "m"]);
    assert_eq!(
        ran.output,
        "ring | Wäsche | @2 3000 1000 3000 1800 4200 1800 4200 1000 3000 1000\nring | shape-2 | @0 0 0\n\
         outline | cart | 0 0 600 0\n",
        "{ran:?}"
    );
    assert_eq!((ran.status, ran.errors.as_str()), (0, ""));
    let alone = import(r#"{"type":"Point","coordinates":[5,6]}"#, &[]);
    assert_eq!(alone.output, "ring | shape-1 | @0 5 6\n");
}

/// A ring that is not convex is written and refused, with the corner that turns in, and never filled up.
#[test]
fn a_ring_that_turns_in() {
    let ran = import("nook POLYGON ((0 0, 9 0, 9 9, 5 4, 0 9, 0 0))\n", &[]);
    assert_eq!(ran.output, "ring | nook | @0 0 0 9 0 9 9 5 4 0 9 0 0\n");
    assert_eq!(ran.status, 1);
    assert!(
        ran.errors
            .starts_with("cocklesway: map:1: `nook` is refused (4): "),
        "{ran:?}"
    );
    assert!(ran.errors.contains("(5, 4)"), "{ran:?}");
}

/// Files, the status of an import, and words of its errors.
#[rustfmt::skip]
const MISTAKES: &[(&str, u8, &str)] = &[
    ("POINT (1.5 0)", 1, "-:1: refused (18): `1.5` mm is no whole number of millimetres"),
    ("POINT (1 0", 2, "-:1: , or ) after two numbers is expected, and here is nothing more"),
    ("POINT (1 x)", 2, "-:1: `x` is not a number"),
    ("POINT (1)", 2, "-:1: `)` is not a number"),
    ("POINT (1 2 3)", 2, "-:1: , or ) after two numbers is expected, and not `3`"),
    ("POINT (1 2) 3", 2, "-:1: the end of the line is expected, and not `3`"),
    ("POINT (1 2, 3 4)", 2, "-:1: a POINT has one point"),
    ("POINT Z (1 2 3)", 2, "-:1: a point has two numbers, x and y"),
    ("POINT EMPTY", 2, "-:1: an empty geometry is no shape"),
    ("POINT (99999999999 2)", 2, "-:1: `99999999999` is out of range"),
    ("LINESTRING (1 2, 3 4, 5 6)", 2, "one of more is no shape"),
    ("POLYGON ((0 0, 9 0, 0 9, 0 0), (1 1, 2 1, 1 2, 1 1))", 2, "a polygon with a hole is no convex shape"),
    ("POLYGON (0 0, 9 0, 0 9)", 2, "-:1: ( before points is expected, and not `0`"),
    ("MULTIPOINT (0 0)", 2, "-:1: POINT, LINESTRING or POLYGON is expected, and not `MULTIPOINT`"),
    ("linen store POINT (0 0)", 2, "-:1: one name is expected, and not `store`"),
    ("a.b POINT (0 0)", 2, "-:1: `a.b` is no name: a name has letters, digits, - and _, and no `.`"),
    ("a @70000 POINT (0 0)", 2, "-:1: `@70000` is no floor: floors are 0 to 65535"),
    ("a POINT (0 0)\na POINT (1 1)", 2, "-:2: the name a is given on line 1 already"),
    ("(0 0)", 2, "-:1: POINT, LINESTRING or POLYGON is expected, and not `(`"),
    ("{", 2, "-:1: a text in quotes is expected, and here is nothing more"),
    ("{\n\"type\": 1 2}", 2, "-:2: , or } is expected, and not `2`"),
    ("{\"a\":1,\"a\":2}", 2, "-:1: a key is there twice in one object"),
    ("{\"type\":\"FeatureCollection\"}", 2, "-:1: a list of features is expected"),
    ("{\"type\":\"Feature\"}", 2, "-:1: a geometry is expected"),
    ("{\"type\":\"Point\"}", 2, "-:1: a list of coordinates is expected"),
    ("{\"type\":\"Point\",\"coordinates\":[1,2,3]}", 2, "a position has two numbers, x and y"),
    ("{\"type\":\"Point\",\"coordinates\":[1,\"2\"]}", 2, "`2` is not a number"),
    ("{\"type\":\"Point\",\"coordinates\":[01,2]}", 2, "`01` is not a number"),
    ("{\"type\":\"Point\",\"coordinates\":[0.5,2]}", 1, "refused (18): `0.5` mm is no whole number"),
    ("{\"type\":\"MultiPolygon\",\"coordinates\":[]}",
     2, "Point, LineString or Polygon is expected, and not `MultiPolygon`"),
    ("{\"type\":\"Polygon\",\"coordinates\":[]}", 2, "a Polygon has a list of one ring"),
    ("{\"type\":\"Polygon\",\"coordinates\":[[],[]]}", 2, "a polygon with a hole is no convex shape"),
    (r#"{"type":"Feature","properties":{"name":7},"geometry":{"type":"Point","coordinates":[1,2]}}"#,
     2, "a name in quotes is expected, and not `7`"),
    (r#"{"type":"Feature","properties":{"floor":-1},"geometry":{"type":"Point","coordinates":[1,2]}}"#,
     2, "`-1` is no floor"),
];

#[test]
fn mistakes_of_files() {
    for (text, status, words) in MISTAKES.iter().copied() {
        let ran = import(text, &[]);
        assert_eq!(
            (ran.status, ran.output.as_str()),
            (status, ""),
            "{text}: {ran:?}"
        );
        assert!(ran.errors.contains(words), "{text}: {ran:?}");
        assert!(
            ran.errors
                .ends_with("cocklesway: nothing is written, since the file is not whole\n")
        );
    }
    let deep = format!("{{\"a\":{}", "[".repeat(100_000));
    assert!(
        import(&deep, &[])
            .errors
            .contains("lists are in lists too deep")
    );
}

#[test]
fn mistakes_of_options() {
    for (words, error) in [
        (&["import"][..], "one file is needed"),
        (&["import", "no-such-file"], "no-such-file: cannot be read"),
        (
            &["import", "-", "--unit", "ft"],
            "`--unit` needs mm, cm or m, and not `ft`",
        ),
        (
            &["import", "-", "--floor", "x"],
            "`--floor` needs a floor from 0 to 65535, and not `x`",
        ),
        (&["export", "-"], "--as wkt or --as geojson is needed"),
        (
            &["export", "-", "--as", "dxf"],
            "`--as` needs wkt or geojson, and not `dxf`",
        ),
        (&["export", "--as", "wkt"], "no file is given"),
        (
            &["export", "-", "--as", "wkt", "--floor", "9"],
            "floor 9 has no shapes to write",
        ),
    ] {
        let ran = with_input(words, HOSPITAL.as_bytes());
        assert_eq!(
            (ran.status, ran.output.as_str()),
            (2, ""),
            "{words:?}: {ran:?}"
        );
        assert!(ran.errors.contains(error), "{words:?}: {ran:?}");
    }
    let torn = with_input(&["export", "-", "--as", "wkt"], b"shape | a | 0\n");
    assert_eq!((torn.status, torn.output.as_str()), (1, ""));
    let one = with_input(
        &["export", "-", "--as", "wkt", "--floor", "3"],
        HOSPITAL.as_bytes(),
    );
    assert_eq!(one.output.lines().count(), 13, "{one:?}");
}
