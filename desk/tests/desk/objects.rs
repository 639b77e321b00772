//! `--json`: one object a line, with the numbers of the typed answer.
use crate::json::{self, Value};
use crate::running::with_input;

fn objects(lines: &str) -> Vec<Value> {
    let ran = with_input(&["ask", "--json", "-"], lines.as_bytes());
    let read = ran
        .output
        .lines()
        .map(|line| json::read(line).unwrap_or_else(|wrong| panic!("{wrong}: {line}")));
    read.collect()
}

/// The value at a path of keys.
#[track_caller]
fn at<'a>(value: &'a Value, path: &str) -> &'a Value {
    let mut value = value;
    for key in path.split('.') {
        value = value
            .get(key)
            .unwrap_or_else(|| panic!("no {key} in {value:?}"));
    }
    value
}

fn read(text: &str) -> Value {
    json::read(text).expect("JSON")
}

#[test]
fn answers_have_their_numbers() {
    let lines = "shape | a | @3 0 0 2 0 2 2 0 2\nclearance | a | @3 5 6\nclearance | a | @3 5 1\n\
                 length | a\nwidth | a\n\
                 furthest | a | 1 0\nfind | a | @3 1 1\ng = grow | a | a\n";
    let [corners, across, length, width, furthest, find, grow] = &objects(lines)[..] else {
        panic!("seven questions");
    };
    assert_eq!(at(corners, "file"), &Value::Text("-".to_string()));
    assert_eq!(at(corners, "line"), &Value::Number(2));
    assert_eq!(at(corners, "question").text(), Some("clearance"));
    assert_eq!(at(corners, "first"), &read("[2,2]"));
    assert_eq!(at(corners, "second"), &read("[5,6]"));
    assert_eq!(
        (at(corners, "squared"), at(corners, "rounded")),
        (&read("25"), &read("5"))
    );
    assert_eq!(
        at(corners, "shapes"),
        &read(
            r#"[{"name":"a","floor":3,"corners":[[0,0],[2,0],[2,2],[0,2]]},{"name":null,"floor":3,"corners":[[5,6]]}]"#,
        )
    );
    assert_eq!(at(across, "first"), &read("[[2,0],[2,2]]"));
    assert_eq!(
        (at(across, "turn"), at(across, "squared")),
        (&read("6"), &read("4"))
    );
    assert_eq!(
        (at(length, "squared"), at(length, "from"), at(length, "to")),
        (&read("8"), &read("[0,0]"), &read("[2,2]"))
    );
    assert_eq!(
        (at(width, "corner"), at(width, "rounded")),
        (&read("[2,2]"), &read("2"))
    );
    assert_eq!(
        (at(furthest, "first"), at(furthest, "last")),
        (&read("[2,0]"), &read("[2,2]"))
    );
    assert_eq!(at(find, "direction"), &Value::Null);
    assert_eq!(at(grow, "name").text(), Some("g"));
    assert_eq!(
        at(grow, "made.corners"),
        &read("[[-2,-2],[2,-2],[2,2],[-2,2]]")
    );
}

/// The points 1 -1 and 9 -1 on floor 2, under the names 7 and 8.
const LOG: &str = "0F0002000700020001000000FFFFFFFF5A 0F0002000800020009000000FFFFFFFF5A";

#[test]
fn shapes_of_a_log_have_their_names() {
    let lines = format!(
        "e = entry | {LOG} | 1\nnearest | {LOG} | @2 1 3\nnearest | {LOG} | @2 1 3 | 7\n\
         gap | {LOG} | @2 0 0 2 0\nnearest | {LOG} | @2 1 -1\ngap | {LOG} | 0 0\n"
    );
    let [entry, near, other, gap, meets, few] = &objects(&lines)[..] else {
        panic!("six questions");
    };
    assert_eq!(at(entry, "name").text(), Some("e"));
    assert_eq!(at(entry, "record"), &read("8"));
    assert_eq!(
        at(entry, "made"),
        &read(r#"{"name":"e","floor":2,"corners":[[9,-1]]}"#)
    );
    assert_eq!(
        (at(near, "record"), at(near, "but")),
        (&read("7"), &Value::Null)
    );
    assert_eq!(
        (at(near, "first"), at(near, "second"), at(near, "squared")),
        (&read("[1,3]"), &read("[1,-1]"), &read("16"))
    );
    assert_eq!(
        (at(other, "record"), at(other, "but"), at(other, "rounded")),
        (&read("8"), &read("7"), &read("8"))
    );
    // Grown by the cart, the points are segments of 2 mm to the left.
    assert_eq!(at(gap, "records"), &read("[7,8]"));
    assert_eq!(
        (at(gap, "first"), at(gap, "second"), at(gap, "rounded")),
        (&read("[1,-1]"), &read("[7,-1]"), &read("6"))
    );
    assert_eq!(at(meets, "apart"), &read("false"));
    assert_eq!(at(few, "refused.number"), &Value::Number(20));
    let reason = "the log has fewer than two shapes on floor 0";
    assert_eq!(at(few, "refused.reason").text(), Some(reason));
}

#[test]
fn drives_have_their_fraction() {
    let lines = "shape | bed | @2 0 0 2 0 2 2 0 2\ncontact | bed | @2 0 0 | -3 1 | 5 1\n\
                 contact | bed | @2 0 0 | -3 5 | 5 5\ncontact | bed | @2 0 0 | -3 5 | 1000001 5\n";
    let [meets, clear, far] = &objects(lines)[..] else {
        panic!("three questions");
    };
    assert_eq!(
        (at(meets, "from"), at(meets, "to")),
        (&read("[-3,1]"), &read("[5,1]"))
    );
    assert_eq!(
        (at(meets, "numerator"), at(meets, "denominator")),
        (&read("3"), &read("8"))
    );
    assert_eq!(
        (at(meets, "meets"), at(meets, "safe")),
        (&read("true"), &read("3"))
    );
    assert_eq!(at(clear, "meets"), &read("false"));
    assert_eq!(
        (at(far, "refused.number"), at(far, "refused.shape")),
        (&read("3"), &read("3"))
    );
    let reason =
        "the place (1000001, 5) is out of range: coordinates go from -1000000 to 1000000 mm";
    assert_eq!(at(far, "refused.reason").text(), Some(reason));
}

#[test]
fn drives_past_a_log_have_their_record() {
    let lines = format!(
        "drive | {LOG} | @2 0 0 | -9 -1 | 11 -1\ndrive | {LOG} | @2 0 0 | -9 0 | 11 0\n\
         drive | {LOG} | @2 0 0 | 0 1000001 | 0 0\n"
    );
    let [meets, clear, far] = &objects(&lines)[..] else {
        panic!("three questions");
    };
    assert_eq!(
        (at(meets, "record"), at(meets, "meets")),
        (&read("7"), &read("true"))
    );
    assert_eq!(
        (at(meets, "numerator"), at(meets, "denominator")),
        (&read("1"), &read("2"))
    );
    assert_eq!(
        (at(meets, "safe"), at(meets, "to")),
        (&read("10"), &read("[11,-1]"))
    );
    assert_eq!(at(clear, "meets"), &read("false"));
    assert!(clear.get("record").is_none());
    assert_eq!(
        (at(far, "refused.number"), at(far, "refused.shape")),
        (&read("3"), &read("1"))
    );
}

#[test]
fn boxes_rings_and_greatest_distances_have_their_numbers() {
    let lines = "r = ring | @3 0 2 2 2 2 0 0 0 0 2\nbox | r\ngreatest | r | @3 5 6\nring | 0 0 4 0 1 1 0 4\n";
    let [ring, least, far, bent] = &objects(lines)[..] else {
        panic!("four questions");
    };
    assert_eq!(
        at(ring, "made"),
        &read(r#"{"name":"r","floor":3,"corners":[[0,0],[2,0],[2,2],[0,2]]}"#)
    );
    assert_eq!(at(least, "edge"), &read("[[0,0],[2,0]]"));
    assert_eq!(
        (
            at(least, "height"),
            at(least, "along"),
            at(least, "squared")
        ),
        (&read("4"), &read("4"), &read("4"))
    );
    assert_eq!(
        (at(far, "squared"), at(far, "first"), at(far, "second")),
        (&read("61"), &read("[0,0]"), &read("[5,6]"))
    );
    assert_eq!(
        (
            at(bent, "refused.number"),
            at(bent, "refused.before"),
            at(bent, "refused.corner")
        ),
        (&read("4"), &read("1"), &read("2"))
    );
}

#[test]
fn refusals_have_their_number_and_reason() {
    let lines = "shape | a | 0 0 5 4 -1 4 4 0 2 6\njudge | a\nrelation | 0 0 | @2 0 0\nbookread | 0300010000 | 7\n";
    let [star, removed, floors, _] = &objects(lines)[..] else {
        panic!("four lines");
    };
    assert_eq!(at(star, "name").text(), Some("a"));
    assert_eq!(at(star, "refused.number"), &Value::Number(4));
    assert_eq!(
        (at(star, "refused.edge"), at(star, "refused.corner")),
        (&Value::Number(0), &Value::Number(3))
    );
    assert_eq!(at(removed, "not_asked.name").text(), Some("a"));
    assert_eq!(at(removed, "not_asked.at.line"), &Value::Number(1));
    assert_eq!(at(floors, "refused.number"), &Value::Number(13));
    let reason = "the point (0, 0) is on floor 0 and the point (0, 0) is on floor 2";
    assert_eq!(at(floors, "refused.reason").text(), Some(reason));
}

#[test]
fn a_check_lists_every_shape() {
    let ran = with_input(
        &["check", "--json", "-"],
        b"shape | a | @3 0 0\noutline | b | 1 1\njudge | a\n",
    );
    let lines: Vec<Value> = ran.output.lines().map(read).collect();
    let [a, b] = &lines[..] else {
        panic!("two shapes: {ran:?}");
    };
    assert_eq!(at(a, "shape.floor"), &Value::Number(3));
    assert_eq!(at(b, "shape.floor"), &Value::Null);
}
