//! Shapes of a given number of corners: in general position, with edges of irregular directions and lengths; regular
//! ones; and some with many parallel edges.
use crate::random::Random;

/// A list of numbers, x y x y.
pub type List = Vec<i32>;

/// The lists that a question is asked of: one shape, or two, as numbers or as bytes; and a log, if it is
/// asked of one.
#[derive(Default)]
pub struct Case {
    pub a: List,
    pub b: List,
    pub cart: List,
    pub bytes: [Vec<u8>; 2],
    pub log: Vec<u8>,
    /// where the way of a cart begins and ends
    pub way: [[i32; 2]; 2],
    /// the position of a shape in the log
    pub position: usize,
}

impl Case {
    /// One shape or two, no log and no way.
    pub fn new(a: List, b: List) -> Case {
        Case {
            a,
            b,
            ..Case::default()
        }
    }

    /// The same lists, as they are.
    pub fn in_numbers(self) -> Case {
        self
    }

    /// The same lists as bytes alone.
    pub fn in_bytes(self) -> Case {
        Case {
            bytes: [bytes_of(&self.a), bytes_of(&self.b)],
            ..Case::default()
        }
    }

    /// Reads all its numbers and bytes, for a number that hangs on them.
    pub fn read(&self) -> i32 {
        let numbers = self.a.iter().chain(&self.b);
        let bytes = self.bytes.iter().flatten().chain(&self.log);
        let sum = numbers.fold(0, |sum: i32, z| sum.wrapping_add(*z));
        bytes.fold(sum, |sum, byte| sum.wrapping_add(*byte as i32))
    }
}

/// Four bytes to a number, the lowest first.
pub fn bytes_of(list: &[i32]) -> Vec<u8> {
    list.iter().flat_map(|z| z.to_le_bytes()).collect()
}

/// How far an edge goes across and up.
type Edge = (i64, i64);

/// Makes a shape of n corners, 3 or more, in a square of about that size with its middle at (x, y).
pub type Outline = fn(&mut Random, usize, i32, i32, i32) -> List;

/// An outline in general position: n differences along each axis that add up to 0, paired at random and laid end to end
/// in the order of their directions. It is tried again until no two directions are equal. The edges of two such shapes
/// follow one another without a pattern, and no processor can guess whose is next.
pub fn polygon(random: &mut Random, n: usize, size: i32, x: i32, y: i32) -> List {
    loop {
        let (across, up) = (differences(random, n, size), differences(random, n, size));
        let edges = in_order(across.into_iter().zip(up).collect());
        if edges.len() == n {
            return laid(&edges, x, y);
        }
    }
}

/// A regular outline, turned by any angle: corners of a circle, rounded to whole numbers. It must be wide enough for
/// its corners to stay corners.
pub fn regular(random: &mut Random, n: usize, size: i32, x: i32, y: i32) -> List {
    let step = std::f64::consts::TAU / n as f64;
    let turned = step * random.between(0, 1000) as f64 / 1000.0;
    let radius = size as f64 / 2.0;
    let corners = (0..n).flat_map(|k| {
        let (sin, cos) = (turned + step * k as f64).sin_cos();
        [
            x + (radius * cos).round() as i32,
            y + (radius * sin).round() as i32,
        ]
    });
    from_lowest(corners.collect())
}

/// The list begun at its lowest corner.
pub fn from_lowest(mut list: List) -> List {
    let corners = list.as_chunks_mut::<2>().0;
    if let Some(k) = (0..corners.len()).min_by_key(|&k| (corners[k][1], corners[k][0])) {
        corners.rotate_left(k);
    }
    list
}

/// A shape with its middle at (x, y) whose edges come of a given number of segments and triangles with
/// coordinates up to the reach: many are parallel if the reach is small. None at all is a point.
pub fn grown(random: &mut Random, parts: usize, reach: i32, x: i32, y: i32) -> List {
    let mut edges = Vec::new();
    for _ in 0..parts {
        let mut side = || random.between(-reach, reach) as i64;
        let (u, v) = ((side(), side()), (side(), side()));
        if random.below(2) == 0 {
            edges.extend([u, (-u.0, -u.1)]);
        } else {
            edges.extend([u, v, (-u.0 - v.0, -u.1 - v.1)]);
        }
    }
    laid(&in_order(edges), x, y)
}

/// Edges by direction, those of one direction joined and those of no length left out.
fn in_order(mut edges: Vec<Edge>) -> Vec<Edge> {
    edges.retain(|&e| e != (0, 0));
    edges.sort_by(|&e, &f| is_down(e).cmp(&is_down(f)).then(0.cmp(&turn(e, f))));
    let mut joined: Vec<Edge> = Vec::new();
    for e in edges {
        match joined.last_mut() {
            Some(last) if is_down(*last) == is_down(e) && turn(*last, e) == 0 => {
                *last = (last.0 + e.0, last.1 + e.1);
            }
            _ => joined.push(e),
        }
    }
    joined
}

/// n numbers that add up to 0: the steps of two ways from the least of some numbers to the greatest.
fn differences(random: &mut Random, n: usize, size: i32) -> Vec<i64> {
    let mut at: Vec<i64> = (0..n).map(|_| random.between(0, size) as i64).collect();
    at.sort_unstable();
    let (least, most) = (at[0], at[n - 1]);
    let (mut one, mut other) = (least, least);
    let mut steps = Vec::new();
    for &z in &at[1..n - 1] {
        if random.below(2) == 0 {
            steps.push(z - one);
            one = z;
        } else {
            steps.push(other - z);
            other = z;
        }
    }
    steps.push(most - one);
    steps.push(other - most);
    random.shuffle(&mut steps);
    steps
}

fn is_down(e: Edge) -> bool {
    e.1 < 0 || (e.1 == 0 && e.0 < 0)
}

fn turn(e: Edge, f: Edge) -> i64 {
    e.0 * f.1 - e.1 * f.0
}

/// The edges end to end, moved so that the middle of what they span is (x, y).
fn laid(edges: &[Edge], x: i32, y: i32) -> List {
    let mut at = (0, 0);
    let mut corners = vec![at];
    for e in &edges[..edges.len().saturating_sub(1)] {
        at = (at.0 + e.0, at.1 + e.1);
        corners.push(at);
    }
    let middle = |axis: fn(&Edge) -> i64| {
        let all = corners.iter().map(axis);
        (all.clone().min().unwrap_or(0) + all.max().unwrap_or(0)) / 2
    };
    let (dx, dy) = (x as i64 - middle(|p| p.0), y as i64 - middle(|p| p.1));
    corners
        .iter()
        .flat_map(|p| [(p.0 + dx) as i32, (p.1 + dy) as i32])
        .collect()
}

/// The list moved by (x, y).
pub fn moved(list: &[i32], x: i32, y: i32) -> List {
    list.chunks(2).flat_map(|p| [p[0] + x, p[1] + y]).collect()
}
