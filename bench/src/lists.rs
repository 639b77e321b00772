//! Lists to compare answers on: shapes of all kinds and sizes, pairs that meet in all ways, lists that
//! are refused for each reason, and floors.
use crate::plain::MOST;
use crate::random::Random;
use crate::shapes::{List, from_lowest, grown, moved, polygon};

/// A list that is a shape, unless it grew too far.
pub fn shape(random: &mut Random) -> List {
    let place = [3, 100, 400_000][random.below(3) as usize];
    let (x, y) = (random.between(-place, place), random.between(-place, place));
    match random.below(16) {
        0 => grown(random, 0, 1, x, y),
        1..6 => some(random, 4, 3, x, y),
        6..9 => some(random, 12, 6, x, y),
        9 => some(random, 40, 40, x, y),
        10 => some(random, 180, 900, x, y),
        11 => some(random, 3, 300_000, x, y),
        12 => some(random, 1, 1_000_000, 0, 0),
        13 => sized(random, 3, 40, x, y),
        14 => sized(random, 40, 300, x, y),
        _ => large(random),
    }
}

/// A shape of about as many corners as are allowed.
fn large(random: &mut Random) -> List {
    sized(random, MOST as i32 - 22, MOST as i32 + 3, 0, 0)
}

/// A shape of at most `most` parts.
fn some(random: &mut Random, most: u64, reach: i32, x: i32, y: i32) -> List {
    let parts = 1 + random.below(most) as usize;
    grown(random, parts, reach, x, y)
}

/// A shape with a number of corners between two.
fn sized(random: &mut Random, low: i32, high: i32, x: i32, y: i32) -> List {
    let n = random.between(low, high) as usize;
    let size = random.between(600_000, 1_000_000);
    polygon(random, n, size, x, y)
}

/// A second list: near the first, or made of it so that they touch, or any.
pub fn beside(random: &mut Random, a: &[i32]) -> List {
    let b = match random.below(4) {
        0 => a.to_vec(),
        1 => turned(a),
        // Only the merge of two large shapes has too many corners.
        2 if a.len() > MOST => large(random),
        _ => shape(random),
    };
    if a.len() < 2 || b.len() < 2 {
        return b;
    }
    let corner = |random: &mut Random, list: &[i32]| {
        let k = 2 * random.below(list.len() as u64 / 2) as usize;
        (list[k], list[k + 1])
    };
    let (p, q) = (corner(random, a), corner(random, &b));
    let (x, y) = (p.0.wrapping_sub(q.0), p.1.wrapping_sub(q.1));
    match random.below(8) {
        0..3 => moved(&b, x, y),
        3 => moved(
            &b,
            x.wrapping_add(random.between(-2, 2)),
            y.wrapping_add(random.between(-2, 2)),
        ),
        4 => moved(&b, x / 2, y / 2),
        _ => b,
    }
}

/// The mirror image, begun at its lowest corner.
fn turned(a: &[i32]) -> List {
    from_lowest(a.iter().map(|z| z.wrapping_neg()).collect())
}

/// A list of one corner or more that something was done to, most often so that it is refused.
pub fn spoilt(random: &mut Random, list: &[i32]) -> List {
    let mut list = list.to_vec();
    let n = list.len() as u64 / 2;
    let k = 2 * random.below(n.max(1)) as usize;
    let other = 2 * random.below(n.max(1)) as usize;
    match random.below(12) {
        0 => list.clear(),
        1 => drop(list.pop()),
        2 => list = list.repeat(2),
        3 => list = list.repeat(1 + (2 * MOST + 100) / list.len().max(1)),
        4 => list[k + random.below(2) as usize] = FAR[random.below(4) as usize],
        5 => list = at_rim(random, &list),
        6 => list.rotate_left(k),
        7 => list = list.chunks(2).rev().flatten().copied().collect(),
        8 => swap(&mut list, k, other),
        9 => drop(list.splice(k..k, [list[other], list[other + 1]]).count()),
        10 => list[k] = list[k].wrapping_add(random.between(-2, 2)),
        _ => between(&mut list, k),
    }
    list
}

/// Numbers out of range.
const FAR: [i32; 4] = [1_000_001, -1_000_001, i32::MIN, i32::MAX];

/// The list moved so that it just reaches the end of the range, or just passes it.
fn at_rim(random: &mut Random, list: &[i32]) -> List {
    let most = |axis| {
        list.iter()
            .skip(axis)
            .step_by(2)
            .max()
            .copied()
            .unwrap_or(0)
    };
    let by = |random: &mut Random, z: i32| 1_000_000 - z + random.below(2) as i32;
    let (x, y) = (by(random, most(0)), by(random, most(1)));
    if random.below(2) == 0 {
        moved(list, x, 0)
    } else {
        moved(list, 0, y)
    }
}

/// Exchanges two corners.
fn swap(list: &mut List, k: usize, other: usize) {
    list.swap(k, other);
    list.swap(k + 1, other + 1);
}

/// Puts the middle of an edge after the corner that the edge leaves.
fn between(list: &mut List, k: usize) {
    let next = if k + 2 < list.len() { k + 2 } else { 0 };
    let middle = |p: i32, q: i32| ((p as i64 + q as i64) / 2) as i32;
    let (x, y) = (
        middle(list[k], list[next]),
        middle(list[k + 1], list[next + 1]),
    );
    list.splice(k + 2..k + 2, [x, y]);
}

/// Points of a sweep: the corners of two lists, few points of a small square or many of any, some of
/// them twice and some between two others, in any order.
pub fn points(random: &mut Random, a: &[i32], b: &[i32]) -> List {
    let reach = [2, 9, 1_000_000][random.below(3) as usize];
    let count = [3, 40, 1100][random.below(3) as usize];
    let mut points: Vec<[i32; 2]> = match random.below(2) {
        0 => [a, b]
            .iter()
            .flat_map(|list| list.as_chunks::<2>().0)
            .copied()
            .collect(),
        _ => (0..1 + random.below(count))
            .map(|_| [random.between(-reach, reach), random.between(-reach, reach)])
            .collect(),
    };
    for _ in 0..random.below(4) * points.len().min(4) as u64 {
        let [p, q] = [0; 2].map(|_: i32| points[random.below(points.len() as u64) as usize]);
        let middle = |k: usize| ((p[k] as i64 + q[k] as i64) / 2) as i32;
        points.push([middle(0), middle(1)]);
        points.push(p);
    }
    random.shuffle(&mut points);
    let list = points.into_flattened();
    if random.below(8) == 0 && list.len() > 1 {
        spoilt(random, &list)
    } else {
        list
    }
}

/// A ring: the corners of a list from any of them on, in either sense, some of them twice, with points between
/// neighbours, closed at times; and some that go round again or cross themselves.
pub fn ring(random: &mut Random, a: &[i32]) -> List {
    let mut ring = a.as_chunks::<2>().0.to_vec();
    if ring.is_empty() {
        return a.to_vec();
    }
    let any = |random: &mut Random, n: usize| random.below(n as u64) as usize;
    for _ in 0..random.below(4) {
        let k = any(random, ring.len());
        let [p, q] = [ring[k], ring[(k + 1) % ring.len()]];
        let middle = |k: usize| ((p[k] as i64 + q[k] as i64) / 2) as i32;
        ring.insert(k + 1, [p, [middle(0), middle(1)]][any(random, 2)]);
    }
    let start = any(random, ring.len());
    ring.rotate_left(start);
    if random.below(2) == 0 {
        ring.reverse();
    }
    if random.below(3) == 0 {
        ring.push(ring[0]);
    }
    let (k, other) = (any(random, ring.len()), any(random, ring.len()));
    match random.below(12) {
        0 => ring.swap(k, other),
        1 => ring.insert(k, ring[other]),
        2 => ring.extend_from_within(..=k),
        3 => return spoilt(random, ring.as_flattened()),
        _ => (),
    }
    ring.into_flattened()
}

/// The floors of two lists: mostly one floor, and at times above the highest.
pub fn floors(random: &mut Random) -> [u32; 2] {
    let f = random.bits() as u16 as u32;
    match random.below(32) {
        0..3 => [f, random.bits() as u16 as u32],
        3..6 => [0, 65_535],
        6..9 => [65_535; 2],
        9 => [f + 65_536; 2],
        10 => [f, f + 65_536],
        11 => [65_536; 2],
        12 => [u32::MAX, f],
        _ => [f; 2],
    }
}
