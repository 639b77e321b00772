//! The numbers of refusals, derived from the answer of `second` and the corners of the line.
use crate::answers::double;
use crate::case::{Case, List};
use crate::floors::refused_when_grown;
use crate::said::{needs, never};
use second::answer::answer;
use second::plane::{Point, divisor, turn};

/// Returns the numbers of a refusal: its own first.
pub fn of_refusal(case: &Case, said: &str) -> Result<Vec<i128>, String> {
    let words: Vec<&str> = case.answer.split(' ').collect();
    let number: i128 = words[1].parse().expect("a number");
    let after = |key: &str| {
        let at = words.iter().position(|word| *word == key)?;
        words
            .get(at + 1)
            .and_then(|word| word.parse::<usize>().ok())
    };
    let both = || [case.label(0), case.label(1)].concat();
    let reason = match number {
        3 if case.word == "contact" && after("shape") > Some(2) => {
            let place = case.numbers_of_field(after("shape").unwrap_or(3) - 1);
            [place, vec![-1_000_000, 1_000_000]].concat()
        }
        3 if case.word == "drive" && after("shape") > Some(1) => {
            let place = case.numbers_of_field(after("shape").unwrap_or(2));
            [place, vec![-1_000_000, 1_000_000]].concat()
        }
        1..=5 if words.get(2) == Some(&"shape") => {
            of_list(case, number, after("shape").unwrap_or(1) - 1, &words, said)?
        }
        3 | 17 | 18 => of_reading(case, words[3], said)?,
        6 => [grown(case), vec![1024]].concat(),
        7 => [grown(case), far(case, said)?].concat(),
        8 => room(case),
        9 => both(),
        10 => flat(case, said)?,
        11 | 12 => of_direction(case, number),
        13 => {
            let floor = |which: usize| case.lists[which].floor;
            let other = if floor(0) == floor(1) { 2 } else { 1 };
            [
                case.label(0),
                vec![floor(0)],
                case.label(other),
                vec![floor(other)],
            ]
            .concat()
        }
        14 => [case.numbers_of_field(2), both()].concat(),
        15 => vec![after("place").expect("a place") as i128],
        16 if case.word == "pack" => vec![bytes_of(&case.fields[1])],
        16 => [vec![bytes_of(&case.fields[0])], case.label(0)].concat(),
        19 => case.numbers_of_field(1),
        20 => too_few(case),
        other => return Err(format!("refusal {other} is not known")),
    };
    needs(said, &format!("refused ({number}): "))?;
    Ok([vec![number], reason].concat())
}

/// How many bytes a field holds, as pairs of hexadecimal digits.
fn bytes_of(field: &str) -> i128 {
    field.bytes().filter(u8::is_ascii_hexdigit).count() as i128 / 2
}

/// A point or a segment, which has no width and no box.
fn flat(case: &Case, said: &str) -> Result<Vec<i128>, String> {
    needs(said, &format!("has no {}", case.word))?;
    match case.lists[0].corners().len() {
        1 => needs(said, "is a point")?,
        _ => needs(said, "is a segment")?,
    }
    Ok(case.label(0))
}

/// The refusals that blame a list.
fn of_list(
    case: &Case,
    number: i128,
    which: usize,
    words: &[&str],
    said: &str,
) -> Result<Vec<i128>, String> {
    let list = &case.lists[which];
    let corners = list.corners();
    let label = case.label(which);
    Ok(match number {
        1 if list.numbers.is_empty() => label,
        1 => [label, vec![list.numbers.len() as i128]].concat(),
        2 => {
            let closing = case.word == "ring" && corners.first() == corners.last();
            let count = corners.len() - usize::from(closing);
            [label, vec![count as i128, 1024]].concat()
        }
        3 => {
            let is_far = |corner: &&[i128; 2]| corner.iter().any(|part| part.abs() > 1_000_000);
            let corner = corners.iter().find(is_far).expect("one is out of range");
            [corner.to_vec(), label, vec![-1_000_000, 1_000_000]].concat()
        }
        4 if case.word == "ring" => {
            needs(said, "is no convex ring")?;
            let at = |word: usize| corners[words[word].parse::<usize>().expect("a position")];
            [label, at(5).to_vec(), at(7).to_vec()].concat()
        }
        4 if corners.len() == 2 => [label, corners[0].to_vec()].concat(),
        4 => side(list, label, words, said)?,
        _ => {
            let lowest = corners
                .iter()
                .min_by_key(|[x, y]| (*y, *x))
                .expect("a corner");
            [label, corners[0].to_vec(), lowest.to_vec()].concat()
        }
    })
}

/// A corner that is not to the left of an edge, and on which side it is.
fn side(list: &List, label: Vec<i128>, words: &[&str], said: &str) -> Result<Vec<i128>, String> {
    let [edge, corner] =
        [words[5], words[7]].map(|word| word.parse::<usize>().expect("a position"));
    let points = list.points();
    let to = points[(edge + 1) % points.len()];
    match turn(points[edge], to, points[corner]) {
        0 => needs(said, "on the line of")?,
        _ => needs(said, "to the right of")?,
    }
    clockwise(&points, said)?;
    Ok([list.corner(corner).to_vec(), label, list.edge(edge)].concat())
}

/// `clockwise` is said exactly if the corners the other way round are a shape; a repeated first corner goes before. Of
/// all other lists `ring` is said exactly if it takes them.
fn clockwise(points: &[Point], said: &str) -> Result<(), String> {
    if points.first() == points.last() {
        return needs(said, "the last corner repeats the first");
    }
    let mut reversed = points.to_vec();
    reversed.reverse();
    let lowest = (0..reversed.len())
        .min_by_key(|&at| reversed[at].low_then_left())
        .unwrap_or(0);
    reversed.rotate_left(lowest);
    let list: Vec<i32> = reversed
        .iter()
        .flat_map(|p| [p.x as i32, p.y as i32])
        .collect();
    if second::judge::judge(&list, 1).is_ok() {
        return needs(said, "clockwise");
    }
    never(said, "clockwise order")?;
    let numbers: Vec<String> = list.iter().map(i32::to_string).collect();
    let ring = answer(format!("ring | {}", numbers.join(" ")).as_bytes());
    match ring.starts_with("ok ") {
        true => needs(said, "the question `ring` makes a shape"),
        false => never(said, "ring"),
    }
}

/// The reading that is refused is told, to the bit.
fn of_reading(case: &Case, axis: &str, said: &str) -> Result<Vec<i128>, String> {
    let field = &case.fields[usize::from(axis == "y")];
    let read = double(field.split_ascii_whitespace().nth(1).expect("bits"));
    needs(said, &format!("the reading of {axis} "))?;
    let told = said.rsplit_once(": ").map_or("", |(_, told)| told);
    let told: f64 = told
        .split(' ')
        .next()
        .unwrap_or("")
        .parse()
        .map_err(|_| format!("no double: {told}"))?;
    if told.to_bits() == read.to_bits() || (told.is_nan() && read.is_nan()) {
        return Ok(Vec::new());
    }
    Err(format!("{told} was not read, but {read}"))
}

/// The obstacle of a passage that is refused when it is grown: the left one, if that is.
fn obstacle(case: &Case) -> usize {
    let grown = answer(format!("grow | {} | {}", case.fields[0], case.fields[2]).as_bytes());
    usize::from(grown.starts_with("ok"))
}

/// The labels of an obstacle that is refused when it is grown, and of its cart.
fn grown(case: &Case) -> Vec<i128> {
    match case.word.as_str() {
        "passage" => [case.label(obstacle(case)), case.label(2)].concat(),
        "contact" => [case.label(0), case.label(1)].concat(),
        "gap" | "drive" => [vec![refused_when_grown(case).0], case.label(0)].concat(),
        _ => Vec::new(),
    }
}

/// The position from 0, or the name that is left out and the floor.
fn too_few(case: &Case) -> Vec<i128> {
    match case.word.as_str() {
        "entry" => [case.numbers_of_field(1), vec![0]].concat(),
        "nearest" => [case.numbers_of_field(2), vec![case.lists[0].floor]].concat(),
        _ => vec![case.lists[0].floor],
    }
}

/// The two shapes whose sum is the answer, or the one that is grown; a cart is mirrored.
fn summands(case: &Case) -> [Vec<Point>; 2] {
    let points = |at: usize| case.lists[at].points();
    let mirrored = |at: usize| points(at).iter().map(|&p| -p).collect();
    match case.word.as_str() {
        "passage" => [points(obstacle(case)), mirrored(2)],
        "grow" | "contact" => [points(0), mirrored(1)],
        "gap" | "drive" => [refused_when_grown(case).1.points(), mirrored(0)],
        _ => [points(0), points(1)],
    }
}

/// How far the answer would reach: the first end of its shape by brute force that is out of range.
fn far(case: &Case, said: &str) -> Result<Vec<i128>, String> {
    let [a, b] = summands(case);
    let all = second::combine::all_sums(&a, &b);
    let xs = || all.iter().map(|p| p.x);
    let ys = || all.iter().map(|p| p.y);
    let ends = [
        ("x", xs().min()),
        ("x", xs().max()),
        ("y", ys().min()),
        ("y", ys().max()),
    ];
    let far = ends
        .into_iter()
        .find(|(_, end)| end.is_some_and(|end| end.abs() > 1_000_000));
    let (axis, end) = far.expect("one end is out of range");
    let end = end.expect("an end");
    needs(said, &format!("{axis} = {end};"))?;
    Ok(vec![end.into(), -1_000_000, 1_000_000])
}

/// How much room the answer needs, and how much there is.
fn room(case: &Case) -> Vec<i128> {
    if case.word == "part" {
        return vec![case.numbers_of_field(3)[1]];
    }
    let (question, room) = case.line.rsplit_once('|').expect("a room");
    let whole = answer(question.as_bytes());
    let count: i128 = whole
        .split(' ')
        .nth(1)
        .and_then(|word| word.parse().ok())
        .expect("a count");
    vec![2 * count, room.trim().parse().expect("a room")]
}

fn of_direction(case: &Case, number: i128) -> Vec<i128> {
    let at = if case.word == "offer" { 2 } else { 1 };
    let towards = case.numbers_of_field(at);
    let common: i128 = divisor(towards[0] as i64, towards[1] as i64).into();
    match number {
        11 if common == 0 => vec![0, 0],
        11 => [towards, vec![-2_000_000, 2_000_000]].concat(),
        _ => [
            towards.clone(),
            towards.iter().map(|part| part / common).collect(),
        ]
        .concat(),
    }
}
