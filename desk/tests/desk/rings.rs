//! Rings as people have them, under a name.
use crate::running::{asked, with_input};

/// Every way to draw a square with a point in line is the same shape.
#[test]
fn any_start_either_way_closed_or_open() {
    let ring = [[0, 0], [10, 0], [20, 0], [20, 9], [0, 9]];
    for start in 0..ring.len() {
        for backwards in [false, true] {
            for closed in [false, true] {
                let mut points = ring;
                points.rotate_left(start);
                if backwards {
                    points.reverse();
                }
                let mut points = points.to_vec();
                if closed {
                    points.push(points[0]);
                }
                let numbers: Vec<String> = points.concat().iter().map(i32::to_string).collect();
                let line = format!(
                    "ring | bed | @2 {}\nshapes\njudge | bed\n",
                    numbers.join(" ")
                );
                let ran = asked(&line);
                assert_eq!(
                    ran.output,
                    "-:2: bed is a shape of 4 corners on floor 2\n-:3: bed is a shape of 4 corners on floor 2\n",
                    "{line}: {ran:?}"
                );
                let ran = with_input(&["export", "-", "--as", "wkt"], line.as_bytes());
                assert_eq!(
                    ran.output, "bed @2 POLYGON ((0 0, 20 0, 20 9, 0 9, 0 0))\n",
                    "{line}"
                );
            }
        }
    }
}

#[test]
fn points_and_segments_are_rings() {
    let map = "ring | post | @1 5 5 5 5\nring | wall | 9 9 0 0 9 9\nlength | post\nlength | wall\n";
    let ran = asked(map);
    assert_eq!(
        ran.output,
        "-:3: post is 0 mm long: it is a point\n-:4: wall is 12 mm (rounded down) long, from (0, 0) to (9, 9)\n",
        "{ran:?}"
    );
}

/// The corner that turns in is said, the name is removed, and nothing is filled up.
#[test]
fn a_ring_that_is_not_convex() {
    let map =
        "ring | nook | @2 0 0 9 0 9 9 5 4 0 9\njudge | nook\nring | star | 0 0 5 4 -1 4 4 0 2 6\n";
    let ran = asked(map);
    let lines: Vec<&str> = ran.output.lines().collect();
    assert!(
        lines[0].starts_with("-:1: `nook` is refused (4): nook is no convex ring: ")
            && lines[0].contains("(5, 4)"),
        "{ran:?}"
    );
    assert_eq!(lines[1], "-:2: not asked: `nook` was refused at -:1");
    assert!(
        lines[2].starts_with("-:3: `star` is refused (4): star is no convex ring"),
        "{ran:?}"
    );
    assert_eq!(ran.status, 1);
}

#[test]
fn refusals_of_rings() {
    for (line, words) in [
        (
            "ring | a | @2 1 2 3",
            "`a` is refused (1): a has 3 numbers; each point needs two, x and y",
        ),
        (
            "ring | a | @2",
            "`a` is refused (1): a has no point; at least one is needed",
        ),
        (
            "ring | a | 0 0 1000001 0 0 1",
            "`a` is refused (3): the point (1000001, 0) of a is out of range",
        ),
        (
            "unit m\nring | a | 0 0 1.0001 0 0 1",
            "`a` is refused (18): `1.0001` m is no whole number of millimetres",
        ),
    ] {
        let ran = asked(line);
        assert_eq!(ran.status, 1, "{line}: {ran:?}");
        assert!(ran.output.contains(words), "{line}: {ran:?}");
    }
    let many: Vec<String> = (0..1025).map(|x| format!("{x} {}", x % 2)).collect();
    let ran = asked(&format!("ring | a | {}", many.join(" ")));
    assert!(
        ran.output
            .contains("`a` is refused (2): a has 1025 points; at most 1024 are allowed"),
        "{ran:?}"
    );
}

/// The question of the same word has a count after its shape.
#[test]
fn a_definition_or_a_question() {
    let map = "ring | bed | 9 0 9 9 0 9 0 0\nring | bed | 8\nring | 0 0 0 9 9 9 | 2\nring | bed\nr = ring | bed\n";
    let ran = asked(map);
    let shape = "is a shape of 4 corners on floor 0: (0, 0) (9, 0) (9, 9) (0, 9)";
    let lines: Vec<&str> = ran.output.lines().collect();
    assert_eq!(
        lines[0],
        format!("-:2: the shape of this ring {shape}"),
        "{ran:?}"
    );
    assert_eq!(
        lines[1],
        "-:3: refused (8): the answer has 6 numbers, and there is room for 2"
    );
    assert_eq!(lines[3], format!("-:5: r {shape}"));
    let ran = asked("ring | 2-3 | 0 0 1 0\nring | a b | 0 0 1 0\nring | bed | 0 0 | 4\n");
    assert_eq!((ran.status, ran.output.as_str()), (2, ""), "{ran:?}");
}
