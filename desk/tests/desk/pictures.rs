//! Pictures, read back: their outlines are held against the library's answers.
use crate::running::{Ran, with_input};
use crate::xml::{self, Element};
use cocklesway::{Relation, Shape, grow, relation, sum};
use second::make::dice::Dice;
use std::collections::BTreeMap;

const MAP: &str = "\
shape | wall | @2 0 5000 12000 5000
shape | linen-store | @2 3000 1000 4200 1000 4200 1800 3000 1800
shape | post | @2 7000 3000
shape | upstairs | @3 0 0 10 0 10 10
outline | cart | 0 0 600 0 600 900 0 900
grown = grow | linen-store | cart
";

type Outlines = BTreeMap<String, (String, Vec<[i32; 2]>)>;

/// A picture, taken apart.
struct Drawn {
    elements: Vec<Element>,
}

fn drawn(arguments: &[&str], map: &str) -> Drawn {
    let ran = run(arguments, map);
    assert_eq!((ran.status, ran.errors.as_str()), (0, ""), "{ran:?}");
    let elements = xml::read(&ran.output).unwrap_or_else(|wrong| panic!("{wrong}: {}", ran.output));
    Drawn { elements }
}

fn run(arguments: &[&str], map: &str) -> Ran {
    let all = [&["draw", "-"], arguments].concat();
    with_input(&all, map.as_bytes())
}

impl Drawn {
    /// The group of that class.
    fn group(&self, class: &str) -> Option<usize> {
        let is = |element: &Element| element.name == "g" && element.get("class") == class;
        self.elements.iter().position(is)
    }

    /// The outlines of a group by their names, with what they are.
    fn outlines(&self, class: &str) -> Outlines {
        let group = self.group(class).unwrap_or_else(|| panic!("no {class}"));
        let named = |element: &&Element| {
            element.inside.contains(&group) && element.attributes.contains_key("data-name")
        };
        let [left, bottom] = corner(self.elements[group].get("data-from"));
        let outlines = self.elements.iter().filter(named).map(|element| {
            let corners: Vec<[i32; 2]> = match element.name.as_str() {
                "circle" => vec![[element.get("cx"), element.get("cy")].map(whole)],
                _ => element.get("points").split(' ').map(corner).collect(),
            };
            let corners = corners.iter().map(|[x, y]| [x + left, y + bottom]);
            (
                element.get("data-name").to_string(),
                (element.get("class").to_string(), corners.collect()),
            )
        });
        outlines.collect()
    }

    /// Where millimetres are on the page: the shift of x and y, and the scale.
    fn transform(&self, class: &str) -> [f64; 3] {
        let group = self.group(class).unwrap_or_else(|| panic!("no {class}"));
        let text = self.elements[group]
            .get("transform")
            .replace("translate(", "")
            .replace(") scale(", " ");
        let numbers: Vec<f64> = text.trim_end_matches(')').split(' ').map(float).collect();
        let [x, y, scale, flipped] = numbers[..] else {
            panic!("four numbers: {text}");
        };
        assert!((scale + flipped).abs() < 1e-9, "{text}");
        [x, y, scale]
    }

    /// All texts of a group.
    fn texts(&self, class: &str) -> Vec<&Element> {
        let group = self.group(class).unwrap_or_else(|| panic!("no {class}"));
        let texts = self
            .elements
            .iter()
            .filter(|element| element.name == "text");
        texts
            .filter(|element| element.inside.contains(&group))
            .collect()
    }

    fn says(&self, words: &str) -> bool {
        self.elements
            .iter()
            .any(|element| element.name == "text" && element.text.contains(words))
    }
}

fn whole(text: &str) -> i32 {
    text.parse().unwrap_or_else(|_| panic!("not whole: {text}"))
}

fn float(text: &str) -> f64 {
    text.parse().unwrap_or_else(|_| panic!("no number: {text}"))
}

fn corner(text: &str) -> [i32; 2] {
    let (x, y) = text.split_once(',').expect("a comma");
    [whole(x), whole(y)]
}

fn names(outlines: &Outlines) -> Vec<&str> {
    outlines.keys().map(String::as_str).collect()
}

#[test]
fn all_shapes_of_the_floor_and_no_others() {
    let picture = drawn(&["--floor", "2"], MAP);
    let outlines = picture.outlines("map");
    assert_eq!(names(&outlines), ["linen-store", "post", "wall"]);
    assert_eq!(outlines["wall"].1, [[0, 5000], [12_000, 5000]]);
    assert_eq!(outlines["post"].1, [[7000, 3000]]);
    assert_eq!(
        outlines["linen-store"].1,
        [[3000, 1000], [4200, 1000], [4200, 1800], [3000, 1800]]
    );
    let mut written: Vec<&str> = picture
        .texts("names")
        .iter()
        .map(|text| text.text.as_str())
        .collect();
    written.sort_unstable();
    assert_eq!(written, names(&outlines));
    assert!(picture.group("inset-A").is_none());
    assert_eq!(
        names(&drawn(&["--floor=3"], MAP).outlines("map")),
        ["upstairs"]
    );
}

#[test]
fn the_zone_is_around_the_obstacle_and_the_cart_at_its_place() {
    let picture = drawn(&["--floor", "2", "--grow", "cart", "--at", "3500,0"], MAP);
    let outlines = picture.outlines("map");
    let cart = [[0, 0], [600, 0], [600, 900], [0, 900]];
    let mut out = [[0; 2]; 16];
    for name in ["wall", "linen-store", "post"] {
        let obstacle = Shape::new(&outlines[name].1, 2);
        let zone = grow(obstacle, Shape::new(&cart, 2), &mut out)
            .expect("a zone")
            .corners;
        let (role, drawn) = &outlines[&format!("{name} grown by cart")];
        assert_eq!((role.as_str(), drawn.as_slice()), ("zone", zone), "{name}");
    }
    let there = sum(Shape::new(&cart, 2), Shape::new(&[[3500, 0]], 2), &mut out)
        .expect("a place")
        .corners;
    let (role, drawn) = &outlines["cart at (3500, 0)"];
    assert_eq!((role.as_str(), drawn.as_slice()), ("cart", there));
    assert!(picture.says("cart at (3500, 0) is free; the nearest is linen-store (100 mm)"));
    let ring = picture
        .elements
        .iter()
        .find(|element| element.get("class") == "origin")
        .expect("a ring");
    assert_eq!([ring.get("cx"), ring.get("cy")], ["3500", "0"]);
}

#[test]
fn a_shape_in_place_of_another_is_told_below() {
    let map = "shape | bed | @2 0 0 20 0 20 9\nshape | bed | @2 50 50 70 50 70 59\n";
    let picture = drawn(&[], map);
    assert_eq!(
        picture.outlines("map")["bed"].1,
        [[50, 50], [70, 50], [70, 59]]
    );
    assert!(
        picture.says("-:2: bed is a shape of 3 corners on floor 2, in place of the one of -:1")
    );
    let ran = with_input(&["check", "-"], map.as_bytes());
    assert!(
        ran.output
            .ends_with("accepted: 1, replaced: 1, refused: 0, unreadable lines: 0\n"),
        "{ran:?}"
    );
}

/// A cart that is itself a shape of the floor is drawn at its place alone, and is no obstacle to itself.
#[test]
fn a_cart_of_the_floor_is_no_obstacle() {
    let map = "shape | cart | @2 0 0 600 0 600 900 0 900\nshape | store | @2 3000 1000 4200 1000 4200 1800 3000 1800\n\
               parked = at | cart | 9000 0\n";
    let picture = drawn(&["--grow", "cart", "--at", "3500,0"], map);
    let outlines = picture.outlines("map");
    assert_eq!(
        names(&outlines),
        [
            "cart at (3500, 0)",
            "parked",
            "store",
            "store grown by cart"
        ]
    );
}

/// A place is in the drawn zone exactly if the cart drawn there meets the drawn obstacle.
#[test]
fn zones_tell_where_the_cart_meets_obstacles() {
    let mut dice = Dice::new(5);
    let mut met = 0;
    for _ in 0..300 {
        let mut part = || dice.between(2000, 5200) as i32;
        let at = [part(), part() - 2000];
        let place = format!("{},{}", at[0], at[1]);
        let picture = drawn(&["--floor", "2", "--grow", "cart", "--at", &place], MAP);
        let outlines = picture.outlines("map");
        let cart = &outlines[&format!("cart at ({}, {})", at[0], at[1])].1;
        let zone = &outlines["linen-store grown by cart"].1;
        let store = Shape::new(&outlines["linen-store"].1, 2);
        let of_cart = relation(Shape::new(cart, 2), store)
            .expect("two shapes")
            .relation;
        let of_place = relation(Shape::new(&[at], 2), Shape::new(zone, 2))
            .expect("two shapes")
            .relation;
        assert_eq!(of_cart, of_place, "{place}");
        assert_eq!(
            picture.says("overlaps linen-store"),
            of_cart == Relation::Overlapping,
            "{place}"
        );
        met += usize::from(of_cart == Relation::Overlapping);
    }
    assert!((50..250).contains(&met), "{met}");
}

/// The grid's coordinates are where the outlines are, and all is on the page.
#[test]
fn the_grid_is_to_scale() {
    for (floor, map) in [
        ("2", MAP),
        ("0", "shape | far | 999999 -1000000 1000000 -999999\n"),
        ("0", "shape | p | 7 7\n"),
    ] {
        let picture = drawn(&["--floor", floor], map);
        let [x, y, scale] = picture.transform("map");
        let view: Vec<f64> = picture.elements[0]
            .get("viewBox")
            .split(' ')
            .map(float)
            .collect();
        for (_, corners) in picture.outlines("map").values() {
            for corner in corners {
                let [at_x, at_y] = [
                    x + scale * f64::from(corner[0]),
                    y - scale * f64::from(corner[1]),
                ];
                assert!(
                    (0.0..=view[2]).contains(&at_x) && (0.0..=view[3]).contains(&at_y),
                    "{corner:?}"
                );
            }
        }
        let mut columns = 0;
        for text in picture
            .texts("coordinates")
            .into_iter()
            .filter(|text| text.text != "metres")
        {
            let millimetres = 1000.0 * float(&text.text);
            let is_column = text.get("text-anchor") == "middle";
            let difference = if is_column {
                float(text.get("x")) - (x + scale * millimetres)
            } else {
                float(text.get("y")) - 4.0 - (y - scale * millimetres)
            };
            assert!(
                difference.abs() < 0.02,
                "{} is off by {difference}",
                text.text
            );
            columns += usize::from(is_column);
        }
        assert!(columns >= 2, "{columns} columns");
    }
}

#[test]
fn a_gap_that_cannot_be_seen_is_drawn_larger() {
    let map = format!("{MAP}shape | bed | @2 4203 900 6203 900 6203 1800 4203 1800\n");
    let picture = drawn(&["--floor", "2"], &map);
    assert!(picture.says("A: 3 mm between linen-store and"));
    let (small, large) = (picture.outlines("map"), picture.outlines("inset-A"));
    assert_eq!(small, large);
    let scale = |class| picture.transform(class)[2];
    assert!(3.0 * scale("map") < 3.0 && 3.0 * scale("inset-A") >= 30.0);
    let wide = format!("{MAP}shape | bed | @2 4260 900 6260 900 6260 1800 4260 1800\n");
    assert!(drawn(&["--floor", "2"], &wide).group("inset-A").is_none());
    let touching = format!("{MAP}shape | bed | @2 4200 900 6200 900 6200 1800 4200 1800\n");
    assert!(
        drawn(&["--floor", "2"], &touching)
            .group("inset-A")
            .is_none()
    );
}

#[test]
fn more_narrow_gaps_than_insets_are_named() {
    let rows: Vec<String> = (0..12)
        .map(|at| {
            format!(
                "shape | s{at} | {0} 0 {1} 0 {1} 900 {0} 900\n",
                901 * at,
                901 * at + 900
            )
        })
        .collect();
    let picture = drawn(&[], &rows.concat());
    assert!(picture.group("inset-F").is_some() && picture.group("inset-G").is_none());
    let hidden = picture.elements.iter().filter(|element| {
        element
            .text
            .starts_with("too narrow to be seen: 1 mm between")
    });
    assert_eq!(hidden.count(), 5);
}

#[test]
fn sums_gaps_and_tangents_only_if_asked_for() {
    let picture = drawn(
        &[
            "--floor",
            "2",
            "--sum",
            "linen-store,cart",
            "--gap",
            "wall,post",
            "--also",
            "grown",
        ],
        MAP,
    );
    let outlines = picture.outlines("map");
    assert_eq!(
        outlines["sum of linen-store and cart"].1,
        [[3000, 1000], [4800, 1000], [4800, 2700], [3000, 2700]]
    );
    assert_eq!(
        outlines["grown"].1,
        [[2400, 100], [4200, 100], [4200, 1800], [2400, 1800]]
    );
    assert!(picture.says("wall and post are 2 m apart"));
    let lines = |picture: &Drawn, class| {
        picture
            .elements
            .iter()
            .filter(|element| element.get("class") == class)
            .count()
    };
    assert_eq!(lines(&picture, "gap"), 1);
    assert_eq!(
        lines(
            &drawn(&["--floor", "2", "--tangents", "wall,post"], MAP),
            "tangent"
        ),
        4
    );
    let refused = run(&["--floor", "2", "--tangents", "wall,wall"], MAP);
    assert_eq!((refused.status, refused.output.as_str()), (1, ""));
    assert!(
        refused
            .errors
            .contains("tangents is refused (9): wall and wall are not apart"),
        "{refused:?}"
    );
}

#[test]
fn no_picture_of_a_map_that_is_not_whole() {
    let ran = run(&[], "shape | a | 0 0 1 0 0 1\nshape | b | 0 0 0 1 1 0\n");
    assert_eq!((ran.status, ran.output.as_str()), (1, ""));
    assert!(ran.errors.contains("-:2: `b` is refused (4)"), "{ran:?}");
    let ran = run(&[], "shape | a | 0 0 1 0 0 1\nshpae | b | 0 0 0 1 1 0\n");
    assert_eq!((ran.status, ran.output.as_str()), (2, ""));
    for (arguments, words) in [
        (
            &[][..],
            "the map has the floors 2, 3: choose one with --floor",
        ),
        (&["--floor", "7"], "floor 7 has no shapes to draw"),
        (
            &["--floor", "2", "--grow", "bed"],
            "`--grow` needs the name of a shape of the map",
        ),
        (&["--floor", "2", "--at", "1,1"], "--at needs a cart"),
        (
            &["--floor", "2", "--grow", "cart", "--at", "1"],
            "`--at` needs two whole numbers",
        ),
        (
            &["--floor", "2", "--also", "upstairs"],
            "upstairs is on floor 3, and floor 2 is drawn",
        ),
        (
            &["--floor", "2", "--gap", "upstairs,upstairs"],
            "upstairs is on floor 3, and floor 2 is drawn",
        ),
        (
            &["--floor", "2", "--gap", "wall,cart"],
            "cart is an outline, which is nowhere on the floor",
        ),
        (
            &["--floor", "x"],
            "`--floor` needs a floor from 0 to 65535, and not `x`",
        ),
        (
            &["--gap", "wall"],
            "`--gap` needs two names with a comma between them",
        ),
    ] {
        let ran = run(arguments, MAP);
        assert_eq!(
            (ran.status, ran.output.as_str()),
            (2, ""),
            "{arguments:?}: {ran:?}"
        );
        assert!(ran.errors.contains(words), "{arguments:?}: {ran:?}");
    }
}

/// The ends of all lines of a class on the map, in millimetres.
fn lines_of(picture: &Drawn, class: &str) -> Vec<[f64; 4]> {
    let lines = picture
        .elements
        .iter()
        .filter(|element| element.name == "line" && element.get("class") == class);
    lines
        .map(|element| ["x1", "y1", "x2", "y2"].map(|key| float(element.get(key))))
        .collect()
}

const DRIVE: &[&str] = &[
    "--floor",
    "2",
    "--cart",
    "cart",
    "--drive",
    "0,0 5000,0 5000,3000 5000,1000 2000,1000",
];

#[test]
fn a_drive_and_its_contact() {
    let picture = drawn(DRIVE, MAP);
    let outlines = picture.outlines("map");
    assert_eq!(
        outlines["leg 1"],
        (
            "way".to_string(),
            vec![[0, 0], [5600, 0], [5600, 900], [0, 900]]
        )
    );
    assert!(outlines.contains_key("leg 2") && outlines.contains_key("leg 3"));
    assert_eq!(
        outlines["cart at (5000, 1000)"].1,
        [[5000, 1000], [5600, 1000], [5600, 1900], [5000, 1900]]
    );
    assert_eq!(
        lines_of(&picture, "way"),
        [
            [0.0, 0.0, 5000.0, 0.0],
            [5000.0, 0.0, 5000.0, 3000.0],
            [5000.0, 3000.0, 5000.0, 1000.0],
            [5000.0, 1000.0, 2000.0, 1000.0]
        ]
    );
    // The cart's left side is on the right side of the store.
    assert_eq!(
        lines_of(&picture, "contact"),
        [
            [4200.0, 1000.0, 4800.0, 1000.0],
            [4800.0, 1000.0, 4800.0, 1900.0],
            [4800.0, 1900.0, 4200.0, 1900.0],
            [4200.0, 1900.0, 4200.0, 1000.0]
        ]
    );
    assert!(picture.says("leg 4: cart meets linen-store first, after 800 mm"));
    assert!(picture.says("the cart where it first meets an obstacle"));
    assert!(!drawn(&["--floor", "2"], MAP).says("the way of the cart's origin"));
}

#[test]
fn gaps_below_a_limit_are_marked() {
    let near = format!("{MAP}shape | bin | @2 4200 2600 4600 2600 4600 3000 4200 3000\n");
    let picture = drawn(&["--floor", "2", "--below", "900"], &near);
    assert_eq!(
        lines_of(&picture, "gap"),
        [[4200.0, 1800.0, 4200.0, 2600.0]]
    );
    assert!(picture.says("linen-store and bin are 800 mm apart"));
    let tags: Vec<&str> = picture
        .texts("names")
        .iter()
        .map(|text| text.text.as_str())
        .collect();
    assert!(tags.contains(&"800 mm"), "{tags:?}");
    let picture = drawn(&["--floor", "2", "--below", "100", "--cart", "cart"], &near);
    assert!(picture.says("cart cannot pass straight between linen-store and bin"));
    assert_eq!(
        lines_of(&drawn(&["--floor", "2", "--below", "800"], &near), "gap").len(),
        0
    );
}

#[test]
fn mistakes_of_drives() {
    for (arguments, words) in [
        (
            &["--drive", "0,0 1,1"][..],
            "--drive needs a cart: --cart CART",
        ),
        (
            &["--drive", "0,0", "--cart", "cart"],
            "--drive needs two places or more",
        ),
        (
            &["--drive", "", "--cart", "cart"],
            "--drive needs two places or more",
        ),
        (
            &["--drive", "0,0 1;1", "--cart", "cart"],
            "`--drive` needs two whole numbers",
        ),
        (
            &["--cart", "crt"],
            "`--cart` needs the name of a shape of the map",
        ),
        (
            &["--below", "-1"],
            "`--below` needs a whole number of millimetres, and not `-1`",
        ),
    ] {
        let ran = run(&[&["--floor", "2"], arguments].concat(), MAP);
        assert_eq!((ran.status, ran.output.as_str()), (2, ""), "{ran:?}");
        assert!(ran.errors.contains(words), "{ran:?}");
    }
    let ran = run(
        &["--floor", "2", "--cart", "cart", "--drive", "0,0 2000000,0"],
        MAP,
    );
    assert_eq!((ran.status, ran.output.as_str()), (1, ""), "{ran:?}");
    assert!(
        ran.errors
            .contains("draw: contact is refused (3): the place (2000000, 0)"),
        "{ran:?}"
    );
}
