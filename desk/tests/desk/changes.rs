//! Two maps compared, and answers that stay.
use crate::json;
use crate::running::{Folder, Ran, with_input};

const OLD: &str = "\
outline | cart | 0 0 600 0 600 900 0 900
shape | wall | @2 0 5000 12000 5000
shape | linen-store | @2 3000 1000 4200 1000 4200 1800 3000 1800
shape | bed | @2 6000 3200 8000 3200 8000 4100 6000 4100
shape | chair | @2 9000 1000 9500 1000 9500 1500 9000 1500
shape | lamp | @3 100 100
shape | desk | @4 0 0 10 0 10 10 0 10
";

const NEW: &str = "\
outline | cart | 0 0 600 0 600 900 0 900
shape | wall | @2 0 5000 12000 5000
shape | linen-store | @2 3000 1000 4200 1000 4200 1900 3000 1900
shape | bed | @2 6000 3200 8000 3200 8000 4000 6000 4000
shape | lamp | @2 100 100
shape | desk | @4 0 0 10 0 10 10 0 10
shape | bin | @2 11000 1000 11300 1000 11300 1300 11000 1300
shape | stool | @4 500 500
";

fn compared(options: &[&str], answers: &str) -> Ran {
    let folder = Folder::new();
    let (old, new) = (folder.file("old.txt", OLD), folder.file("new.txt", NEW));
    let mut words = vec!["diff", &old, &new];
    words.extend(options);
    with_input(&words, answers.as_bytes())
}

#[test]
fn what_changed() {
    let ran = compared(&[], "");
    let lines: Vec<&str> = ran.output.lines().collect();
    assert_eq!(
        lines,
        [
            "linen-store changed on floor 2: it reaches at most 100 mm beyond the old one, rounded up, from \
             (4200, 1800) to (4200, 1900); the old one is inside it",
            "bed changed on floor 2: it is inside the old one; the old one reaches at most 100 mm beyond it, rounded \
             up, from (8000, 4000) to (8000, 4100)",
            "chair is removed on floor 2",
            "lamp is on floor 2 now, and was on floor 3",
            "bin is added on floor 2",
            "stool is added on floor 4",
            "same: 3, changed: 2, elsewhere: 1, added: 2, removed: 1",
        ],
        "{ran:?}"
    );
    assert_eq!((ran.status, ran.errors.as_str()), (0, ""));
    let all = compared(&["--all"], "");
    assert!(
        all.output
            .starts_with("cart is the same as an outline\nwall is the same on floor 2\n")
    );
}

#[test]
fn answers_that_stay() {
    let answers = "clearance | linen-store | wall | ok 3200\nrelation | linen-store | bed | ok apart\n\
                   passage | linen-store | bed | cart\ncontact | linen-store | cart | 0 0 | 9000 0 | ok never\n\
                   clearance | wall | bed\nlength | cart\nwidth | linen-store\nnearest | @4 0 20 | ok desk\n\
                   clearance | lamp | @3 0 0\nclearance | chair | wall\nclearance | bed | bed\n\
                   nearest | linen-store\nnearest | @2 9000 2000\nnearest | @4 490 490\n";
    let ran = compared(&["--answers", "-"], answers);
    let lines: Vec<&str> = ran.output.lines().skip(7).collect();
    assert_eq!(
        lines,
        [
            "-:1: stays: linen-store and wall are still at least 3100 mm apart, 3200 mm less at most 100 mm",
            "-:2: stays: linen-store and bed are still at least 2180 mm apart, 2280 mm less at most 100 mm",
            "-:3: stays: cart still passes between linen-store and bed with at least 1200 mm to spare, 1300 mm less \
             at most 100 mm",
            "-:4: ask anew: contact of linen-store and cart, since up to 100 mm of its 100 mm may be lost",
            "-:5: stays: wall and bed are still at least 900 mm apart, as before",
            "-:6: stays: length of cart, of which nothing changed",
            "-:7: ask anew: width of linen-store, of which one changed",
            "-:8: stays: desk is still nearest to the point (0, 20)",
            "-:9: ask anew: clearance of lamp and the point (0, 0), of which one is on another floor",
            "-:10: not to be asked any more: the new map has no `chair`",
            "-:11: ask anew: clearance of bed and bed, since there was nothing to lose",
            "-:12: ask anew: nearest of linen-store, of which one changed",
            "-:13: ask anew: nearest of the point (9000, 2000), since the nearest or what is around it changed",
            "-:14: ask anew: nearest of the point (490, 490), since the nearest or what is around it changed",
            "answers that stay: 6, to be asked anew: 7",
        ],
        "{ran:?}"
    );
    assert_eq!((ran.status, ran.errors.as_str()), (0, ""));
}

/// What stays by the theorem is so when the new map is asked.
#[test]
fn what_stays_is_true_of_the_new_map() {
    let ran = with_input(
        &["ask", "-"],
        format!(
            "{NEW}clearance | linen-store | wall\nrelation | linen-store | bed\npassage | linen-store | bed | cart\n\
             clearance | wall | bed\n"
        )
        .as_bytes(),
    );
    let words = [
        "are 3.1 m apart",
        "are apart",
        "can pass straight",
        "are 1 m apart",
    ];
    for (line, words) in ran.output.lines().zip(words) {
        assert!(line.contains(words), "{line}");
    }
}

/// Lines of settled answers, the status, and words of what is said.
#[rustfmt::skip]
const WRONG: &[(&str, u8, &str)] = &[
    ("clearance | linen-store | wall | ok 3300", 2, "-:1: the old map answers `3200`, and not `3300`"),
    ("width | linen-store | ok 800", 2, "-:1: it has no short answer: leave `800` out"),
    ("nearest | @2 100 4900 | ok bed", 2, "-:1: the old map answers `wall`, and not `bed`"),
    ("clearance | bin | wall", 2, "-:1: by the old map, no shape before this line is called `bin`"),
    ("shape | x | 0 0", 2, "-:1: by the old map, `shape` is no word that begins a line"),
    ("x = mirror | cart", 2, "by the old map"),
    ("clearance | linen-store", 2, "`clearance` needs one more field: another shape"),
    ("nearest | @7 0 0", 1, "-:1: refused (20)"),
    ("clearance | linen-store | lamp", 1, "-:1: refused (13): linen-store is on floor 2 and lamp is on floor 3"),
    ("clearance | linen-store | wall | ok 3200 | 4", 2, "has at most 2 fields"),
];

#[test]
fn wrong_answers() {
    for (line, status, words) in WRONG.iter().copied() {
        let ran = compared(&["--answers", "-"], line);
        assert_eq!(ran.status, status, "{line}: {ran:?}");
        let said = if status == 1 {
            &ran.output
        } else {
            &ran.errors
        };
        assert!(said.contains(words), "{line}: {ran:?}");
    }
}

#[test]
fn objects_of_changes() {
    let ran = compared(
        &["--json", "--answers", "-"],
        "clearance | linen-store | wall\nclearance | chair | wall\n",
    );
    for line in ran.output.lines() {
        json::read(line).expect(line);
    }
    for words in [
        r#"{"change":"changed","name":"linen-store","old":{"#,
        r#""up":100,"back":0,"sentence":"#,
        r#"{"change":"same","name":"wall","#,
        r#"{"change":"removed","name":"chair","old":{"name":"chair","floor":2,"#,
        r#"{"file":"-","line":1,"question":"clearance","stays":true,"was":3200,"least":3100,"#,
        r#"{"file":"-","line":2,"gone":true,"#,
    ] {
        assert!(ran.output.contains(words), "{words}: {ran:?}");
    }
}

/// Commands, their status, and words of their errors.
#[rustfmt::skip]
const MISTAKES: &[(&str, u8, &str)] = &[
    ("diff MAP", 2, "two maps are needed: OLD NEW"),
    ("diff MAP MAP MAP", 2, "two maps are needed: OLD NEW"),
    ("diff MAP no-such-map", 2, "no-such-map: cannot be read"),
    ("diff MAP MAP --answers no-such-file", 2, "no-such-file: cannot be read"),
    ("diff MAP BAD", 1, "nothing is answered, since the map is not whole"),
    ("diff MAP MAP --answer x", 2, "there is no option `--answer` (did you mean `--answers`?)"),
];

#[test]
fn mistakes_of_diff() {
    let folder = Folder::new();
    let old = folder.file("old.txt", OLD);
    let bad = folder.file("bad.txt", "shape | a | 0\n");
    for (command, status, error) in MISTAKES.iter().copied() {
        let command = command.replace("MAP", &old).replace("BAD", &bad);
        let words: Vec<&str> = command.split(' ').collect();
        let ran = with_input(&words, b"");
        assert_eq!(ran.status, status, "{command}: {ran:?}");
        assert!(ran.errors.contains(error), "{command}: {ran:?}");
    }
    let same = with_input(&["diff", &old, &old], b"");
    assert_eq!(
        same.output,
        "same: 7, changed: 0, elsewhere: 0, added: 0, removed: 0\n"
    );
}
