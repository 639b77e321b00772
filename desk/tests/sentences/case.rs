//! A question taken apart, with its answer by brute force.
use second::answer::answer;
use second::plane::{Point, point};

/// A question, taken apart, with its answer by brute force.
pub struct Case {
    pub line: String,
    pub word: String,
    pub fields: Vec<String>,
    pub lists: Vec<List>,
    pub names: Vec<Option<String>>,
    /// The answer by brute force.
    pub answer: String,
}

/// A list of numbers and its floor.
#[derive(Clone, Default)]
pub struct List {
    pub floor: i128,
    pub numbers: Vec<i64>,
}

/// Questions on two lists; `passage` has three, `bookadd` one as its third field, `nearest`, `gap` and `drive` one as
/// their second, all others one as their first.
const TWO: [&str; 14] = [
    "sum",
    "parts",
    "part",
    "merge",
    "grow",
    "relation",
    "inside",
    "offer",
    "find",
    "clearance",
    "greatest",
    "excess",
    "tangents",
    "contact",
];

/// What the lists of a question are called.
const NAMES: [&str; 3] = ["alpha", "beta", "gamma"];

impl List {
    pub fn read(text: &str) -> Option<List> {
        let mut words = text.split_ascii_whitespace().peekable();
        let mut floor = 0;
        if let Some(digits) = words.peek().and_then(|word| word.strip_prefix('@')) {
            floor = digits.parse().ok()?;
            words.next();
        }
        let numbers: Option<Vec<i64>> = words.map(|word| word.parse().ok()).collect();
        Some(List {
            floor,
            numbers: numbers?,
        })
    }

    pub fn corners(&self) -> Vec<[i128; 2]> {
        if self.numbers.len() % 2 == 1 {
            return Vec::new();
        }
        let pairs = self.numbers.chunks_exact(2);
        pairs.map(|pair| [pair[0].into(), pair[1].into()]).collect()
    }

    pub fn corner(&self, at: usize) -> [i128; 2] {
        let corners = self.corners();
        corners[at % corners.len()]
    }

    pub fn edge(&self, at: usize) -> Vec<i128> {
        [self.corner(at), self.corner(at + 1)].concat()
    }

    pub fn points(&self) -> Vec<Point> {
        self.numbers
            .chunks_exact(2)
            .map(|pair| point(pair[0], pair[1]))
            .collect()
    }
}

impl Case {
    /// Takes a question apart; nothing for one with carriage returns inside, which the program does not read.
    pub fn of(line: &str, named: bool) -> Option<Case> {
        if line.contains('\r') {
            return None;
        }
        let (word, rest) = line.split_once('|')?;
        let word = word.trim().to_string();
        let fields: Vec<String> = rest
            .split('|')
            .map(|field| field.trim().to_string())
            .collect();
        let lists: Option<Vec<List>> = list_fields(&word)
            .iter()
            .map(|&at| List::read(fields.get(at)?))
            .collect();
        let lists = lists?;
        let names = NAMES.map(|name| named.then(|| name.to_string()));
        Some(Case {
            line: line.to_string(),
            names: names.into_iter().take(lists.len()).collect(),
            answer: answer(line.as_bytes()),
            word,
            fields,
            lists,
        })
    }

    /// Returns the word, and whether and how it was refused.
    pub fn kind(&self) -> String {
        let mut words = self.answer.split(' ');
        match (words.next(), words.next()) {
            (Some("no"), Some(number)) => format!("{} no {number}", self.word),
            _ => format!("{} ok", self.word),
        }
    }

    /// The numbers in what a sentence calls a shape.
    pub fn label(&self, which: usize) -> Vec<i128> {
        let list = &self.lists[which];
        let corners = list.corners();
        match corners.len() {
            _ if self.names[which].is_some() => Vec::new(),
            0 => Vec::new(),
            1 | 2 => corners.concat(),
            count => [vec![count as i128], corners[0].to_vec()].concat(),
        }
    }

    /// The numbers in what a sentence calls a corner of a shape.
    pub fn corner(&self, which: usize, at: usize) -> Vec<i128> {
        let list = &self.lists[which];
        match list.corners().len() {
            1 => list.corner(0).to_vec(),
            _ => [list.corner(at).to_vec(), self.label(which)].concat(),
        }
    }

    pub fn numbers_of_field(&self, at: usize) -> Vec<i128> {
        let field = self.fields.get(at).map_or("", String::as_str);
        field
            .split_ascii_whitespace()
            .map(|word| word.parse().expect("a number"))
            .collect()
    }
}

/// The fields of a question that are lists.
pub fn list_fields(word: &str) -> &'static [usize] {
    match word {
        "tablet" | "bookread" | "pack" | "entry" => &[],
        "nearest" | "gap" | "drive" => &[1],
        "bookadd" => &[2],
        "passage" => &[0, 1, 2],
        word if TWO.contains(&word) => &[0, 1],
        _ => &[0],
    }
}

/// Returns a file that defines the lists of a question by names, and asks it with these; nothing if one is no shape.
pub fn with_names(line: &str) -> Option<String> {
    let (word, rest) = line.split_once('|')?;
    let word = word.trim();
    let mut fields: Vec<String> = rest
        .split('|')
        .map(|field| field.trim().to_string())
        .collect();
    let lists = list_fields(word);
    if lists.is_empty() || word == "sweep" || word == "ring" {
        return None;
    }
    let mut text = String::new();
    for (name, &at) in NAMES.iter().zip(lists) {
        let list = fields.get(at)?;
        if !answer(format!("judge | {list}").as_bytes()).starts_with("ok") {
            return None;
        }
        text.push_str(&format!("shape | {name} | {list}\n"));
        fields[at] = (*name).to_string();
    }
    Some(format!("{text}{word} | {}", fields.join(" | ")))
}

/// Returns the corners of a question's first list, if it is a shape.
pub fn good_list(line: &str) -> Option<Vec<[i64; 2]>> {
    let case = Case::of(line, false)?;
    let list = case.lists.first()?;
    let judged = answer(format!("judge | {}", case.fields.first()?).as_bytes());
    let corners = list.numbers.chunks_exact(2).map(|pair| [pair[0], pair[1]]);
    judged.starts_with("ok").then(|| corners.collect())
}

/// The text of a list of corners.
pub fn text_of(corners: &[[i64; 2]]) -> String {
    let numbers: Vec<String> = corners.as_flattened().iter().map(i64::to_string).collect();
    numbers.join(" ")
}
