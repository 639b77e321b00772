//! 100,000 files, random and mutated: no panic, nothing lost, and a status that says what happened.
use crate::running::{Folder, Ran, with_input};
use crate::{json, xml};
use second::make::dice::Dice;

const FILES: usize = 100_000;

/// Good files, to be mutated.
const GOOD: &[&str] = &[
    "# Floor 2\nshape | wall | @2 0 5000 12000 5000\nshape | linen-store | @2 3000 1000 4200 1000\n\
     \t+ 4200 1800 3000 1800 # rest\noutline | cart | 0 0 600 0 600 900 0 900\n\
     grown = grow | linen-store | cart\nclearance | linen-store | wall\nrelation | @2 3500 100 | grown\n",
    "\u{FEFF}shape|a|0 0 2 0 2 2 0 2\r\nshape|b|5 0 7 0 7 2 5 2\r\ntangents|a|b\r\nfind|a|b\r\nshapes\r\n",
    "shape | Wäsche | @1 0 0 1 0 0 1\nx = mirror | Wäsche\ny = sum | x | Wäsche\nwidth | y\nlength | y | 4\n",
    "parts | 0 0 2 0 2 2 0 2 | 0 0 1 0 0 1 | 2:4 9:6\npart | 0 0 2 0 | 0 0 1 0 | 1 1 0 | 9 9\n\
     tablet | mm 0x4008000000000000 | e8 0xc030000000000000\nbookread | 0F0002000700020001000000FFFFFFFF5A | 7\n\
     bookadd | 00 00 00 | 7 | @2 1 -1 | 3\npack | 0F0002000700020001000000FFFFFFFF5A | 00 00 | 7 | 1\n",
    "p = sweep | @3 9 9 1 1 4 2 8 8\nq = at | p | 1000 -1000\nr = merge | p | q\noffer | p | q | 1 0\n\
     inside | p | r\nfurthest | r | -1 0\njudge | r\n0 0 1 1\n+ 2 2\n",
    "outline | cart | 0 0 600 0 600 900 0 900\ncontact | @2 3000 1000 4200 1000 | cart | 0 0 | 6000 2000\n\
     bed = entry | 0F0002000700020001000000FFFFFFFF5A | 0 | 4\n\
     nearest | 0F0002000700020001000000FFFFFFFF5A | @2 cart | 9\n\
     gap | 0F0002000700020001000000FFFFFFFF5A0F0002000800020009000000FFFFFFFF5A | @2 0 0\n",
    "unit m\nring | bed | @2 0 0 2.0 0 2 0.9 0 0.90 0 0\nshape | wall | @2 0 1.5 4 1.5\nunit | cm\n\
     shape | post | @2 1.5 2.25\nunit mm\nring | cart | 0 0 0 900 600 900 600 0\nclearance | bed | wall\n\
     contact | bed | cart | 0.0 -1.5 | 9 9\n",
    "bed = ring | @2 9 0 9 7 0 7 0 0 4 0 9 0 | 8\nbox | bed\ngreatest | bed | @2 5 6 3 9\n\
     drive | 0F0002000700020001000000FFFFFFFF5A | @2 0 0 1 0 | -9 -1 | 9 -1\nring | 0 0 4 0 1 1 0 4\n",
];

/// Words of lines, good and bad.
const WORDS: &[&str] = &[
    "shape",
    "outline",
    "ring",
    "unit",
    "unit m\n",
    "grow",
    "sum",
    "at",
    "merge",
    "sweep",
    "ring",
    "mirror",
    "relation",
    "clearance",
    "greatest",
    "excess",
    "judge",
    "shapes",
    "width",
    "box",
    "length",
    "area",
    "tangents",
    "offer",
    "find",
    "inside",
    "furthest",
    "parts",
    "part",
    "tablet",
    "bookread",
    "bookadd",
    "pack",
    "passage",
    "entry",
    "nearest",
    "gap",
    "drive",
    "contact",
    "a",
    "b",
    "cart",
    "=",
    "|",
    "|",
    "|",
    "|",
    "\n",
    "\n",
    "\n",
    "+",
    "#",
    "@2",
    "@65536",
    "@-0",
    "@",
    "0",
    "1",
    "-1",
    "7",
    "600",
    "1000001",
    "-0",
    "99999999999",
    "1.5",
    "-0.25",
    "2.0",
    "2:4",
    "mm",
    "0x4008000000000000",
    "\r",
    "\t",
    "\u{1b}",
    "\u{202e}",
    "\u{a0}",
    "é",
    "語",
    "\0",
    "--json",
    "0 0 1 0 0 1",
    "0 0",
    "3 3 5 3",
];

fn file(dice: &mut Dice) -> Vec<u8> {
    match dice.below(10) {
        0 => (0..dice.below(200))
            .map(|_| dice.below(256) as u8)
            .collect(),
        1..4 => words(dice).into_bytes(),
        _ => {
            let mut bytes = dice.pick(GOOD).as_bytes().to_vec();
            for _ in 0..=dice.below(4) {
                mutate(dice, &mut bytes);
            }
            bytes
        }
    }
}

fn words(dice: &mut Dice) -> String {
    let words: Vec<&str> = (0..dice.below(60)).map(|_| dice.pick(WORDS)).collect();
    words.join(" ")
}

fn mutate(dice: &mut Dice, bytes: &mut Vec<u8>) {
    let at = dice.below(bytes.len() + 1);
    let to = (at + dice.below(20)).min(bytes.len());
    match dice.below(8) {
        0 => bytes.truncate(at),
        1 => drop(bytes.drain(at..to)),
        2 => bytes.insert(at, dice.below(256) as u8),
        3 => drop(bytes.splice(at..at, dice.pick(WORDS).bytes())),
        4 => bytes.extend_from_within(at..to),
        5 => bytes.insert(at, b'\n'),
        6 if at < bytes.len() => bytes[at] = dice.pick(b"|+#=@\n\t 09-"),
        _ => {
            let lines: Vec<&[u8]> = bytes.split(|&byte| byte == b'\n').collect();
            let (one, other) = (dice.below(lines.len()), dice.below(lines.len()));
            let mut swapped = lines.clone();
            swapped.swap(one, other);
            *bytes = swapped.join(&b'\n');
        }
    }
}

/// How many lines say something: neither blank, nor a comment, nor continuing another.
fn lines_of(bytes: &[u8]) -> usize {
    let text = String::from_utf8_lossy(bytes);
    let text = text.strip_prefix('\u{FEFF}').unwrap_or(&text);
    let (mut count, mut is_open) = (0, false);
    for row in text.split('\n') {
        let said = row.split('#').next().unwrap_or("");
        let is_comment = row.contains('#');
        let said = if is_comment {
            said
        } else {
            said.strip_suffix('\r').unwrap_or(said)
        };
        let said = said.trim_matches([' ', '\t']);
        match (said.is_empty(), is_comment) {
            (true, true) => {}
            (true, false) => is_open = false,
            (false, _) => {
                count += usize::from(!(is_open && said.starts_with('+')));
                is_open = true;
            }
        }
    }
    count
}

/// What holds of every run.
fn hold(ran: &Ran, bytes: &[u8]) {
    let shown = || String::from_utf8_lossy(bytes).into_owned();
    let is_written = |c: char| c == '\n' || !c.is_control();
    assert!(
        ran.output.chars().chain(ran.errors.chars()).all(is_written),
        "{ran:?}\n{}",
        shown()
    );
    assert!(
        ran.errors
            .lines()
            .all(|line| line.starts_with("cocklesway: -:")),
        "{ran:?}\n{}",
        shown()
    );
    let refused = ran.output.contains("refused");
    let expected = match (ran.errors.is_empty(), refused) {
        (false, _) => 2,
        (true, true) => 1,
        (true, false) => 0,
    };
    assert_eq!(ran.status, expected, "{ran:?}\n{}", shown());
}

#[test]
fn files_of_all_sorts() {
    let mut dice = Dice::new(38);
    let mut ended = [0; 3];
    for number in 0..FILES {
        let bytes = file(&mut dice);
        match number % 8 {
            0 => {
                let ran = with_input(&["ask", "--json", "-"], &bytes);
                hold(&ran, &bytes);
                ran.output
                    .lines()
                    .for_each(|line| drop(json::read(line).expect(line)));
            }
            1 => checked(&bytes),
            2 => drawn(&["draw", "-"], &bytes),
            3 => drawn(
                &[
                    "draw", "-", "--floor", "2", "--grow", "cart", "--at", "3500,0",
                ],
                &bytes,
            ),
            _ => {
                let ran = with_input(&["ask", "-"], &bytes);
                hold(&ran, &bytes);
                ended[usize::from(ran.status)] += 1;
            }
        }
        every_line_counts(&bytes);
    }
    assert!(
        ended.iter().all(|&count| count > 1000),
        "too few of one status: {ended:?}"
    );
}

/// Commands on whole floors, of files of all sorts: answers and no panic, or an error.
#[test]
fn whole_floors_of_all_sorts() {
    let mut dice = Dice::new(50);
    let folder = Folder::new();
    let old = folder.file("old", GOOD[0]);
    let commands = [
        "gaps - --floor 2 --cart cart --below 5000",
        "gaps - --json --apart",
        "stands - --floor 2 --cart cart --at 3500,100 --json",
        "drive - --floor 2 --cart cart 0,0 3000,0 3000,2500",
        "nearest - --floor 2 --at 0,0",
        "passes - linen-store wall --cart cart",
        "export - --as geojson",
        "diff - OLD --json",
        "draw - --floor 2 --cart cart --below 5000 --drive 0,0_3000,0_3000,2500",
    ];
    for number in 0..FILES / 10 {
        let bytes = file(&mut dice);
        let command = commands[number % commands.len()].replace("OLD", &old);
        let words: Vec<String> = command
            .split(' ')
            .map(|word| word.replace('_', " "))
            .collect();
        let words: Vec<&str> = words.iter().map(String::as_str).collect();
        let ran = with_input(&words, &bytes);
        assert_eq!(
            ran.status == 2,
            ran.errors.contains("cocklesway: ") && ran.status != 1,
            "{ran:?}"
        );
        if command.contains("json") && ran.status == 0 {
            let text = if command.contains("geojson") {
                ran.output.replace('\n', "")
            } else {
                ran.output
            };
            text.lines()
                .for_each(|line| drop(json::read(line).expect(line)));
        }
    }
}

/// Files of other programs, mutated: no panic, and a status that says what happened.
#[test]
fn formats_of_all_sorts() {
    let good = [
        "bed @2 POLYGON ((0 0, 2000 0, 2000 900, 0 900, 0 0))\nPOINT (1 2)\noutline cart LINESTRING (0 0, 6e2 0)\n",
        r#"{"type":"FeatureCollection","features":[{"type":"Feature","properties":{"name":"bed","floor":2},
        "geometry":{"type":"Polygon","coordinates":[[[0,0],[2.5,0],[2,0.9],[0,0]]]}},
        {"type":"Point","coordinates":[1e3,-2]}]}"#,
    ];
    let mut dice = Dice::new(51);
    let mut ended = [0; 3];
    for _ in 0..FILES / 10 {
        let mut bytes = dice.pick(&good).as_bytes().to_vec();
        for _ in 0..dice.below(4) {
            mutate(&mut dice, &mut bytes);
        }
        let ran = with_input(&["import", "-", "--unit", "m"], &bytes);
        assert_eq!(ran.status == 0, ran.errors.is_empty(), "{ran:?}");
        ended[usize::from(ran.status)] += 1;
    }
    assert!(
        ended.iter().all(|&count| count > 100),
        "too few of one status: {ended:?}"
    );
}

/// Every line gives one event, whatever it says.
fn every_line_counts(bytes: &[u8]) {
    let source = desk::source::Source {
        name: "-".into(),
        bytes: bytes.to_vec(),
    };
    let mut count = 0;
    let told = desk::session::Session::new().read(&source, |_| -> Result<(), ()> {
        count += 1;
        Ok(())
    });
    assert_eq!(
        (told, count),
        (Ok(()), lines_of(bytes)),
        "{}",
        String::from_utf8_lossy(bytes)
    );
}

/// The last line of a check counts what was found, and the status says the same.
fn checked(bytes: &[u8]) {
    let ran = with_input(&["check", "-"], bytes);
    let last = ran.output.lines().last().unwrap_or("").to_string();
    let is_fine = last.contains("refused: 0, unreadable lines: 0");
    assert_eq!(ran.status == 0, is_fine, "{ran:?}");
    assert_eq!(
        ran.errors.is_empty(),
        last.contains("unreadable lines: 0"),
        "{ran:?}"
    );
}

/// A picture is well-formed XML, or there is none and an error.
fn drawn(arguments: &[&str], bytes: &[u8]) {
    let ran = with_input(arguments, bytes);
    assert_eq!(ran.status == 0, ran.errors.is_empty(), "{ran:?}");
    assert_eq!(ran.status == 0, !ran.output.is_empty(), "{ran:?}");
    if ran.status == 0 {
        xml::read(&ran.output).unwrap_or_else(|wrong| panic!("{wrong}: {}", ran.output));
    }
}
