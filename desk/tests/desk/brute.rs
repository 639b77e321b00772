//! Commands on whole floors, held against brute force: made floors, and every pair, place and leg by `second`.
use crate::json::{self, Value};
use crate::running::{Folder, with_input};
use desk::floor::across::needed;
use desk::given::{Given, Pair};
use second::answer::answer;
use second::make::dice::Dice;
use std::cmp::Ordering;

/// A shape by its numbers, as a line has them.
type List = String;

/// What brute force answers, after `ok`.
fn told(line: &str) -> Vec<String> {
    let told = answer(line.as_bytes());
    let words = told
        .strip_prefix("ok ")
        .unwrap_or_else(|| panic!("{line}: {told}"));
    words.split(' ').map(str::to_string).collect()
}

/// The shape that brute force writes.
fn made(line: &str) -> List {
    let told = answer(line.as_bytes());
    let (_, numbers) = told
        .split_once("| ")
        .unwrap_or_else(|| panic!("{line}: {told}"));
    numbers.trim().to_string()
}

/// A shape of a few points in a box.
fn shape(dice: &mut Dice, size: i64, from: [i64; 2]) -> List {
    let [x, y] = from;
    let points: Vec<String> = (0..=dice.below(6))
        .map(|_| {
            format!(
                "{} {}",
                x + dice.between(0, size),
                y + dice.between(0, size)
            )
        })
        .collect();
    made(&format!("sweep | {}", points.join(" ")))
}

/// A floor of several shapes, of which some meet.
fn floor(dice: &mut Dice) -> Vec<List> {
    (0..dice.between(3, 8))
        .map(|_| {
            let from = [dice.between(0, 120), dice.between(0, 120)];
            shape(dice, 40, from)
        })
        .collect()
}

fn map(shapes: &[List], cart: &List) -> String {
    let mut text = format!("outline | cart | {cart}\n");
    for (at, shape) in shapes.iter().enumerate() {
        text.push_str(&format!("shape | s{at} | @2 {shape}\n"));
    }
    text
}

/// The square of a distance as a fraction, and its whole millimetres.
fn near(line: &str) -> ([i128; 2], i128) {
    let words = told(line);
    let number = |at: usize| words[at].parse::<i128>().unwrap_or(0);
    match words[0].as_str() {
        "cc" => ([number(3), 1], number(4)),
        "ce" | "ec" => ([number(3) * number(3), number(4)], number(5)),
        _ => ([0, 1], 0),
    }
}

fn compared([a, b]: [i128; 2], [c, d]: [i128; 2]) -> Ordering {
    (a * d).cmp(&(c * b))
}

/// The objects that a command prints.
fn objects(command: &str, map: &str) -> Vec<Value> {
    let words: Vec<&str> = command.split(' ').collect();
    let ran = with_input(&words, map.as_bytes());
    assert!(
        ran.status == 0 && ran.errors.is_empty(),
        "{command}: {ran:?}\n{map}"
    );
    let lines = ran.output.lines();
    lines.map(|line| json::read(line).expect(line)).collect()
}

fn text(value: &Value, key: &str) -> String {
    value
        .get(key)
        .and_then(Value::text)
        .unwrap_or_default()
        .to_string()
}

fn number(value: &Value, key: &str) -> i64 {
    match value.get(key) {
        Some(Value::Number(number)) => *number,
        other => panic!("{key}: {other:?} in {value:?}"),
    }
}

fn names(value: &Value, key: &str) -> Vec<String> {
    match value.get(key) {
        Some(Value::List(values)) => values
            .iter()
            .map(|name| name.text().expect("a name").to_string())
            .collect(),
        other => panic!("{key}: {other:?} in {value:?}"),
    }
}

#[test]
fn gaps_by_brute_force() {
    let mut dice = Dice::new(71);
    for round in 0..300 {
        let (shapes, cart) = (floor(&mut dice), shape(&mut dice, 12, [-6, -6]));
        let with_cart = round % 2 == 1;
        let solids: Vec<List> = match with_cart {
            true => shapes
                .iter()
                .map(|shape| made(&format!("grow | {shape} | {cart}")))
                .collect(),
            false => shapes.clone(),
        };
        let limit = dice.between(1, 120);
        let mut expected = Vec::new();
        for (first, a) in solids.iter().enumerate() {
            for (second, b) in solids.iter().enumerate().skip(first + 1) {
                let (squared, rounded) = near(&format!("clearance | {a} | {b}"));
                expected.extend((rounded < limit.into()).then_some((squared, [first, second])));
            }
        }
        expected.sort_by(|(a, _), (b, _)| compared(*a, *b));
        let cart_words = if with_cart { " --cart cart" } else { "" };
        let found = objects(
            &format!("gaps - --json --below {limit}{cart_words}"),
            &map(&shapes, &cart),
        );
        let found: Vec<Vec<String>> = found.iter().map(|gap| names(gap, "names")).collect();
        let expected: Vec<Vec<String>> = expected
            .iter()
            .map(|(_, pair)| pair.map(|at| format!("s{at}")).to_vec())
            .collect();
        assert_eq!(found, expected, "{}", map(&shapes, &cart));
    }
}

/// A floor with a cart, and its map.
struct Made {
    shapes: Vec<List>,
    cart: List,
    map: String,
}

impl Made {
    fn new(dice: &mut Dice) -> Made {
        let (shapes, cart) = (floor(dice), shape(dice, 12, [-6, -6]));
        let map = map(&shapes, &cart);
        Made { shapes, cart, map }
    }

    /// Holds what a cart meets at a place; returns whether it is free.
    fn stands(&self, [x, y]: [i64; 2]) -> bool {
        let there = made(&format!("sum | {} | {x} {y}", self.cart));
        let met = |word: &str| -> Vec<String> {
            let is = |shape: &List| told(&format!("relation | {there} | {shape}"))[0] == word;
            let met = self
                .shapes
                .iter()
                .enumerate()
                .filter(|(_, shape)| is(shape));
            met.map(|(at, _)| format!("s{at}")).collect()
        };
        let found = &objects(
            &format!("stands - --json --cart cart --at {x},{y}"),
            &self.map,
        )[0];
        assert_eq!(names(found, "overlaps"), met("overlapping"), "{}", self.map);
        assert_eq!(names(found, "touches"), met("touching"), "{}", self.map);
        text(found, "state") == "free"
    }

    /// The first shape that the cart meets, and after which part of its way.
    fn first_met(&self, way: &str) -> Option<([i128; 2], String)> {
        let mut first: Option<([i128; 2], String)> = None;
        for (at, shape) in self.shapes.iter().enumerate() {
            let words = told(&format!("contact | {shape} | {} | {way}", self.cart));
            if words[0] == "never" {
                continue;
            }
            let part = [0, 1].map(|at: usize| words[at].parse().expect("a number"));
            let is_less = first
                .as_ref()
                .is_none_or(|(least, _)| compared(part, *least).is_lt());
            first = if is_less {
                Some((part, format!("s{at}")))
            } else {
                first
            };
        }
        first
    }

    /// Holds a drive; returns whether it meets something.
    fn drives(&self, [[x, y], [u, v]]: [[i64; 2]; 2]) -> bool {
        let command = format!("drive - --json --cart cart {x},{y} {u},{v}");
        let found = &objects(&command, &self.map)[0];
        let first = self.first_met(&format!("{x} {y} | {u} {v}"));
        let is_met = first.is_some();
        let (part, name) = first.unwrap_or_else(|| {
            let way = made(&format!("sweep | {x} {y} {u} {v}"));
            let swept = made(&format!("sum | {} | {way}", self.cart));
            ([0, 1], nearest(&self.shapes, &swept))
        });
        assert_eq!(text(found, "name"), name, "{}", self.map);
        if is_met {
            let said = ["numerator", "denominator"].map(|key| i128::from(number(found, key)));
            assert_eq!(said, part, "{}", self.map);
        }
        is_met
    }
}

#[test]
fn places_and_legs_by_brute_force() {
    let mut dice = Dice::new(72);
    let mut seen = [[0; 2]; 2];
    for _ in 0..300 {
        let made = Made::new(&mut dice);
        let [x, y, u, v] = [0; 4].map(|_| dice.between(-20, 180));
        seen[0][usize::from(made.stands([x, y]))] += 1;
        seen[1][usize::from(made.drives([[x, y], [u, v]]))] += 1;
        let found = &objects(&format!("nearest - --json --at {x},{y}"), &made.map)[0];
        let name = nearest(&made.shapes, &format!("{x} {y}"));
        assert_eq!(text(found, "name"), name, "{}", made.map);
    }
    assert!(
        seen.as_flattened().iter().all(|&count| count > 10),
        "{seen:?}"
    );
}

/// The first of the nearest shapes.
fn nearest(shapes: &[List], to: &List) -> String {
    let distances = shapes
        .iter()
        .map(|shape| near(&format!("clearance | {to} | {shape}")).0);
    let least = distances
        .enumerate()
        .min_by(|(_, a), (_, b)| compared(*a, *b));
    format!("s{}", least.expect("a shape").0)
}

/// Two maps of the same names, and a drive.
struct Two {
    old: Made,
    new: Made,
    way: [i64; 4],
}

impl Two {
    fn new(dice: &mut Dice) -> Two {
        let old = Made::new(dice);
        let shapes: Vec<List> = old.shapes.iter().map(|list| changed(dice, list)).collect();
        let cart = if dice.one_in(3) {
            changed(dice, &old.cart)
        } else {
            old.cart.clone()
        };
        let map = map(&shapes, &cart);
        let way = [0; 4].map(|_| dice.between(-20, 180));
        let new = Made { shapes, cart, map };
        Two { old, new, way }
    }

    /// What `diff` says of five questions.
    fn verdicts(&self, folder: &Folder) -> Vec<Value> {
        let [x, y, u, v] = self.way;
        let questions = format!(
            "clearance | s0 | s1\nrelation | s1 | s2\npassage | s0 | s2 | cart\n\
             contact | s1 | cart | {x} {y} | {u} {v}\nnearest | @2 {x} {y}\n"
        );
        let [old, new] = [("old.txt", &self.old), ("new.txt", &self.new)]
            .map(|(name, made)| folder.file(name, &made.map));
        let found = objects(&format!("diff {old} {new} --json --answers -"), &questions);
        let is_verdict = |value: &Value| value.get("stays").is_some();
        found.into_iter().filter(is_verdict).collect()
    }

    /// Whether what is said to stay holds for the new map: the answer is as it was, or has at least so much left.
    fn holds(&self, verdict: &Value) -> bool {
        let least = verdict.get("least").map_or(0, |_| number(verdict, "least"));
        let line = number(verdict, "line");
        if line == 5 {
            return self.is_nearest(&text(verdict, "name"));
        }
        let [new, old] = [&self.new, &self.old].map(|made| self.line(made, line));
        let (is, was) = (told(&new), told(&old));
        let left = |at: usize| is[at].parse::<i64>().is_ok_and(|left| left >= least);
        is == was
            || match line {
                1 => near(&new).1 >= least.into(),
                3 => is[0] != "blocked" && left(4),
                _ => is[0] == "apart" || is[0] == "never",
            }
    }

    /// One of the first four questions, with the shapes of a map.
    fn line(&self, made: &Made, line: i64) -> String {
        let ([x, y, u, v], cart) = (self.way, &made.cart);
        let [a, b, c] = [0, 1, 2].map(|at| &made.shapes[at]);
        match line {
            1 => format!("clearance | {a} | {b}"),
            2 => format!("relation | {b} | {c}"),
            3 => format!("passage | {a} | {c} | {cart}"),
            _ => format!("contact | {b} | {cart} | {x} {y} | {u} {v}"),
        }
    }

    /// Whether no shape of the new map is nearer to the place than that of a name.
    fn is_nearest(&self, name: &str) -> bool {
        let [x, y, ..] = self.way;
        let shapes = &self.new.shapes;
        let first = nearest(shapes, &format!("{x} {y}"));
        let [own, other] = [name, &first].map(|name| {
            let at: usize = name[1..].parse().expect("a number");
            near(&format!("clearance | {x} {y} | {}", shapes[at])).0
        });
        compared(own, other).is_eq()
    }
}

/// What `diff` says to stay is true of the new map.
#[test]
fn settled_answers_by_brute_force() {
    let mut dice = Dice::new(73);
    let folder = Folder::new();
    let (mut stay, mut anew) = (0, 0);
    for _ in 0..200 {
        let two = Two::new(&mut dice);
        for verdict in two.verdicts(&folder) {
            if verdict.get("stays") == Some(&Value::Bool(true)) {
                assert!(
                    two.holds(&verdict),
                    "{verdict:?}\n{}\n{}",
                    two.old.map,
                    two.new.map
                );
                stay += 1;
            } else {
                anew += 1;
            }
        }
    }
    assert!(stay > 200 && anew > 100, "{stay} {anew}");
}

/// A shape with some of its corners moved a little, or lost, or as it was.
fn changed(dice: &mut Dice, list: &List) -> List {
    if dice.one_in(3) {
        return list.clone();
    }
    let by = dice.between(0, 3);
    let numbers: Vec<String> = list
        .split(' ')
        .map(|word| {
            let number: i64 = word.parse().expect("a number");
            (number + dice.between(-by, by)).to_string()
        })
        .collect();
    made(&format!("sweep | {}", numbers.join(" ")))
}

/// A shape as the desk has it.
fn given(list: &List) -> Given {
    Given {
        name: None,
        numbers: list
            .split(' ')
            .map(|word| word.parse().expect("a number"))
            .collect(),
        floor: None,
    }
}

/// What a cart needs across a gap is the least whole number that is enough.
#[test]
fn needs_by_brute_force() {
    let mut dice = Dice::new(74);
    let mut asked = 0;
    for _ in 0..2000 {
        let [a, b] = [0; 2].map(|_| {
            let from = [dice.between(0, 200), dice.between(0, 200)];
            given(&shape(&mut dice, 40, from))
        });
        let (cart, pair) = (given(&shape(&mut dice, 90, [-40, -40])), Pair { a, b });
        let (one, other) = pair.lent();
        let found = cocklesway::clearance(one, other)
            .expect("two shapes")
            .nearest;
        let Some(need) = found.and_then(|found| needed(&cart, &pair, found)) else {
            continue;
        };
        let [u, v] = need.direction.map(i128::from);
        let values = cart
            .corners()
            .iter()
            .map(|[x, y]| u * i128::from(*x) + v * i128::from(*y));
        let spread = values.clone().max().expect("a corner") - values.min().expect("a corner");
        let (squared, up) = (u * u + v * v, i128::from(need.millimetres));
        let enough = |millimetres: i128| spread * spread <= millimetres * millimetres * squared;
        assert!(
            enough(up) && (up == 0 || !enough(up - 1)),
            "{need:?} {pair:?} {cart:?}"
        );
        assert_eq!(need.exact, spread * spread == up * up * squared, "{need:?}");
        asked += 1;
    }
    assert!(asked > 1000);
}
