//! What the page is answered: the same as `cocklesway ask` answers of the same map.
use crate::server::{MAP, corners, list, member, number, start, text, yes};
use desk::command::{Console, run};
use desk::formats::value::Value;
use std::ffi::OsString;

/// The sentences that `cocklesway ask` prints for lines after a map.
fn asked(map: &str, lines: &[Value]) -> Vec<String> {
    let lines: Vec<&str> = lines
        .iter()
        .map(|line| line.text().expect("a text"))
        .collect();
    let rows = map.lines().count();
    let all = format!("{map}{}\n", lines.join("\n"));
    let (mut input, mut output, mut errors) = (all.as_bytes(), Vec::new(), Vec::new());
    let mut console = Console {
        input: Some(&mut input),
        output: &mut output,
        errors: &mut errors,
    };
    run(&["ask", "-"].map(OsString::from), &mut console);
    assert!(errors.is_empty(), "{}", String::from_utf8_lossy(&errors));
    let output = String::from_utf8(output).expect("text");
    let after = output.lines().filter_map(|line| {
        let (place, said) = line.strip_prefix("-:")?.split_once(": ")?;
        let number: usize = place.parse().expect("a line");
        (number > rows).then(|| said.to_string())
    });
    after.collect()
}

#[test]
fn the_map_is_told() {
    let server = start(MAP);
    let map = server.asked("map", "{}");
    assert_eq!(text(&map, "file"), "map.txt");
    let floors = list(member(&map, "floors"));
    assert_eq!(floors.len(), 2);
    assert_eq!(member(&floors[0], "number"), &number(2));
    let shapes = list(member(&floors[0], "shapes"));
    let names: Vec<&str> = shapes.iter().map(|shape| text(shape, "name")).collect();
    assert_eq!(names, ["wall", "linen-store", "bed"]);
    assert_eq!(
        member(&shapes[1], "corners"),
        &corners(&[[3000, 1000], [4200, 1000], [4200, 1800], [3000, 1800]])
    );
    let carts = list(member(&map, "carts"));
    assert_eq!((carts.len(), text(&carts[0], "name")), (1, "cart"));
    assert!(list(member(&map, "problems")).is_empty());
    let answers = list(member(&map, "answers"));
    assert!(text(&answers[0], "sentence").starts_with("linen-store and wall are 3.2 m apart"));
}

#[test]
fn what_is_wrong_is_told() {
    let map = format!(
        "{MAP}shape | sink | @4 0 0 0 800 1200 800 1200 0\nshape | x | 1\nfoo\nwidth | sink\n"
    );
    let server = start(&map);
    let map = server.asked("map", "{}");
    let problems = list(member(&map, "problems"));
    assert_eq!(problems.len(), 3);
    assert!(text(&problems[0], "sentence").starts_with("`sink` is refused (4): the corner"));
    let floors = list(member(&map, "floors"));
    let numbers: Vec<&Value> = floors.iter().map(|floor| member(floor, "number")).collect();
    assert_eq!(numbers, [0, 2, 3, 4].map(number).iter().collect::<Vec<_>>());
    let refused = list(member(&floors[3], "refused"));
    assert_eq!(text(&refused[0], "name"), "sink");
    assert!(list(member(&floors[3], "shapes")).is_empty());
}

#[test]
fn a_cart_at_places() {
    let server = start(MAP);
    for (at, state, near) in [
        ("[3500,0]", "free", "linen-store"),
        ("[3500,100]", "touching", "linen-store"),
        ("[3500,101]", "overlapping", "linen-store"),
        ("[7000,2299]", "free", "bed"),
        ("[7000,2300]", "touching", "bed"),
        ("[6500,4100]", "touching", "wall"),
        ("[6500,4090]", "overlapping", "bed"),
    ] {
        let body = format!("{{\"floor\":2,\"cart\":\"cart\",\"at\":{at}}}");
        let answer = server.asked("place", &body);
        assert_eq!(text(&answer, "state"), state, "{at}: {answer:?}");
        let near_by: Vec<&str> = list(member(&answer, "near"))
            .iter()
            .map(|near| text(near, "sentence"))
            .collect();
        assert!(
            near_by.iter().any(|said| said.contains(near)),
            "{at}: {answer:?}"
        );
        // The same lines, asked of the program, have the same answers.
        let lines = list(member(&answer, "lines"));
        let said: Vec<String> = asked(MAP, lines)
            .into_iter()
            .skip(1)
            .map(|said| said.replace("there", "cart"))
            .collect();
        assert_eq!(said, near_by, "{at}");
    }
    let answer = server.asked("place", "{\"floor\":9,\"cart\":\"cart\",\"at\":[0,0]}");
    assert_eq!(text(&answer, "state"), "alone");
    let answer = server.asked("place", "{\"floor\":2,\"cart\":\"cart\",\"at\":[999999,0]}");
    assert_eq!(text(&answer, "state"), "refused");
    assert!(
        text(&answer, "sentence").starts_with("refused (7): the answer would reach x = 1000599")
    );
}

#[test]
fn what_touches_and_what_overlaps_are_both_named() {
    let map = "shape | a | 0 0 10 0 10 10 0 10\nshape | b | 20 0 30 0 30 10 20 10\noutline | c | 0 0 12 0 12 5 0 5\n";
    let server = start(map);
    let answer = server.asked("place", "{\"floor\":0,\"cart\":\"c\",\"at\":[10,2]}");
    assert_eq!(text(&answer, "state"), "overlapping");
    let meets: Vec<(&str, &str)> = list(member(&answer, "meets"))
        .iter()
        .map(|met| (text(met, "name"), text(met, "relation")))
        .collect();
    assert_eq!(meets, [("a", "touching"), ("b", "overlapping")]);
}

#[test]
fn zones_are_grown_obstacles() {
    let server = start(MAP);
    let answer = server.asked("zones", "{\"floor\":2,\"cart\":\"cart\"}");
    let zones = list(member(&answer, "zones"));
    assert_eq!(zones.len(), 3);
    assert_eq!(
        member(&zones[1], "corners"),
        &corners(&[[2400, 100], [4200, 100], [4200, 1800], [2400, 1800]])
    );
}

#[test]
fn two_shapes() {
    let server = start(MAP);
    let answer = server.asked(
        "pair",
        "{\"a\":\"linen-store\",\"b\":\"wall\",\"cart\":\"cart\"}",
    );
    let keys = ["relation", "clearance", "passage"];
    let sentences: Vec<&str> = keys
        .iter()
        .map(|key| text(member(&answer, key), "sentence"))
        .collect();
    assert_eq!(asked(MAP, list(member(&answer, "lines"))), sentences);
    assert_eq!(
        member(member(&answer, "clearance"), "rounded"),
        &number(3200)
    );
    assert_eq!(member(member(&answer, "passage"), "passable"), &yes(true));
    // Across floors the sentence says why not.
    let answer = server.asked("pair", "{\"a\":\"post\",\"b\":\"wall\"}");
    assert!(text(member(&answer, "clearance"), "sentence").starts_with("refused (13)"));
}

#[test]
fn drives() {
    let server = start(MAP);
    let body = "{\"floor\":2,\"cart\":\"cart\",\"places\":[[0,0],[2000,0],[2000,3000],[9000,3000],[9000,3000]]}";
    let answer = server.asked("drive", body);
    let legs = list(member(&answer, "legs"));
    let states: Vec<&str> = legs.iter().map(|leg| text(leg, "state")).collect();
    assert_eq!(states, ["clear", "clear", "meets", "clear"]);
    assert_eq!(text(&legs[2], "name"), "bed");
    let said = text(member(&legs[2], "contact"), "sentence");
    assert_eq!(asked(MAP, list(member(&legs[2], "lines"))), [said]);
    assert_eq!(
        member(&legs[0], "swept"),
        &corners(&[[0, 0], [2600, 0], [2600, 900], [0, 900]])
    );
    assert_eq!(
        text(&legs[0], "sentence"),
        "cart is clear all the way from (0, 0) to (2000, 0): it meets none of the 3 shapes of floor 2"
    );
    assert_eq!(text(&legs[0], "name"), "linen-store");
}

#[test]
fn a_drive_meets_the_first_on_its_way() {
    // Three posts in a row, the nearest last in the map, and two at one place.
    let map = "shape | far | 90 0\nshape | near | 30 0\nshape | twin | 30 0\noutline | dot | 0 0\n";
    let server = start(map);
    let drive = |places: &str| {
        let answer = server.asked(
            "drive",
            &format!("{{\"floor\":0,\"cart\":\"dot\",\"places\":{places}}}"),
        );
        let leg = &list(member(&answer, "legs"))[0];
        text(leg, "name").to_string()
    };
    assert_eq!(drive("[[0,0],[100,0]]"), "near");
    assert_eq!(drive("[[100,0],[0,0]]"), "far");
    assert_eq!(drive("[[30,0],[100,0]]"), "near");
}

#[test]
fn drives_without_obstacles_and_out_of_range() {
    let server = start(MAP);
    for (floor, places, state, said) in [
        (
            9,
            "[[0,0],[5,5]]",
            "clear",
            "floor 9 has no shape that it could meet",
        ),
        (
            2,
            "[[0,0],[1000001,5]]",
            "refused",
            "refused (3): the place (1000001, 5)",
        ),
        // The cart reaches out of range, where no shape is.
        (
            2,
            "[[999000,0],[1000000,5]]",
            "clear",
            "none of the 3 shapes",
        ),
    ] {
        let body = format!("{{\"floor\":{floor},\"cart\":\"cart\",\"places\":{places}}}");
        let answer = server.asked("drive", &body);
        let leg = &list(member(&answer, "legs"))[0];
        assert_eq!(text(leg, "state"), state, "{leg:?}");
        assert!(text(leg, "sentence").contains(said), "{leg:?}");
    }
}

/// Wishes that cannot be met: the address, the body, and words of the reason.
const WRONG: &[(&str, &str, &str)] = &[
    ("map", "", "no JSON"),
    ("map", "[]", "no JSON object"),
    ("map", "{\"changes\":1}", "`changes`"),
    (
        "map",
        "{\"changes\":[{\"name\":\"cart\",\"floor\":2,\"corners\":[[0,0]]}]}",
        "not written as a shape",
    ),
    ("place", "{}", "`cart`"),
    ("place", "{\"cart\":\"a b\"}", "no name"),
    (
        "place",
        "{\"cart\":\"bed\",\"floor\":2,\"at\":[0,0]}",
        "no outline",
    ),
    (
        "place",
        "{\"cart\":\"nobody\",\"floor\":2,\"at\":[0,0]}",
        "no shape `nobody`",
    ),
    (
        "place",
        "{\"cart\":\"cart\",\"floor\":65536,\"at\":[0,0]}",
        "`floor`",
    ),
    (
        "place",
        "{\"cart\":\"cart\",\"floor\":2,\"at\":[0]}",
        "`at`",
    ),
    (
        "place",
        "{\"cart\":\"cart\",\"floor\":2,\"at\":[0,2147483648]}",
        "`at`",
    ),
    (
        "place",
        "{\"cart\":\"cart\",\"floor\":2,\"at\":[0,0.5]}",
        "whole",
    ),
    ("pair", "{\"a\":\"bed\"}", "`b`"),
    (
        "drive",
        "{\"cart\":\"cart\",\"floor\":2,\"places\":[0,0]}",
        "`places`",
    ),
    ("judge", "{\"name\":\"bed\",\"floor\":2}", "`corners`"),
];

#[test]
fn wishes_that_cannot_be_met() {
    let server = start(MAP);
    for (path, body, words) in WRONG {
        let reply = server.post(path, body);
        assert_eq!(reply.code, 400, "{path} {body}: {reply:?}");
        assert!(reply.body.contains(words), "{path} {body}: {reply:?}");
    }
    let many = vec!["[0,0]"; 65].join(",");
    let reply = server.post(
        "drive",
        &format!("{{\"cart\":\"cart\",\"floor\":2,\"places\":[{many}]}}"),
    );
    assert_eq!(reply.code, 400);
}
