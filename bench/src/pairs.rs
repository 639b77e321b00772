//! Shapes to measure questions on, of one outline or another.
use crate::logs::record;
use crate::plain::{self, MOST};
use crate::random::Random;
use crate::shapes::{Case, List, Outline, moved};

/// Makes a case of about n corners, of an outline if that matters.
pub type Make = fn(&mut Random, usize, Outline) -> Case;

/// One shape.
pub fn single(random: &mut Random, n: usize, outline: Outline) -> Case {
    let size = random.between(800_000, 1_600_000);
    Case::new(outline(random, n, size, 0, 0), List::new())
}

/// One shape whose list begins at another corner than the lowest.
pub fn elsewhere(random: &mut Random, n: usize, outline: Outline) -> Case {
    let mut case = single(random, n, outline);
    let corners = case.a.as_chunks_mut::<2>().0;
    corners.rotate_left(1 + random.below(n as u64 - 1) as usize);
    case
}

/// Points anywhere in range.
pub fn scattered(random: &mut Random, n: usize, _: Outline) -> Case {
    let numbers = (0..2 * n).map(|_| random.between(-1_000_000, 1_000_000));
    Case::new(numbers.collect(), List::new())
}

/// The corners of a shape in any order.
pub fn shuffled(random: &mut Random, n: usize, outline: Outline) -> Case {
    let mut case = single(random, n, outline);
    let points = case.a.as_chunks_mut::<2>().0;
    random.shuffle(points);
    case
}

/// The corners of a shape clockwise, from any of them on, and the first again.
pub fn drawn(random: &mut Random, n: usize, outline: Outline) -> Case {
    let mut case = single(random, n, outline);
    let points = case.a.as_chunks_mut::<2>().0;
    points.reverse();
    points.rotate_left(random.below(n as u64) as usize);
    case.a.extend_from_within(..2);
    case
}

/// The same with half of the corners, each of them twice, so that a ring has as many points.
pub fn drawn_twice(random: &mut Random, n: usize, outline: Outline) -> Case {
    let mut case = drawn(random, n / 2, outline);
    let points = case.a.as_chunks::<2>().0;
    let twice = points[1..].iter().flat_map(|p| [*p, *p]);
    case.a = twice.flatten().collect();
    case
}

/// Two shapes that overlap, the second with 4 corners less; neither is inside the other if they are in general
/// position.
pub fn crossing(random: &mut Random, n: usize, outline: Outline) -> Case {
    overlapping(random, [n, n - 4], 25_000, outline)
}

/// Two shapes whose sum and difference are answered. These have as many corners as both together,
/// and an answer at most `MOST`: so in place of 1,024 and 1,020 corners they have 512 and 506.
pub fn summed(random: &mut Random, n: usize, outline: Outline) -> Case {
    let counts = if n + n - 4 > MOST {
        [MOST / 2, MOST / 2 - 6]
    } else {
        [n, n - 4]
    };
    overlapping(random, counts, 25_000, outline)
}

/// Two shapes whose sum has too many corners, at any n: the second has as many as a shape may have.
pub fn large(random: &mut Random, n: usize, outline: Outline) -> Case {
    overlapping(random, [n, MOST], 25_000, outline)
}

/// Two shapes of n corners each whose sum is answered; at most 512, so that it has no more than `MOST`.
pub fn alike(random: &mut Random, n: usize, outline: Outline) -> Case {
    let n = n.min(MOST / 2);
    overlapping(random, [n, n], 25_000, outline)
}

/// The same, but the sum is out of range.
pub fn far(random: &mut Random, n: usize, outline: Outline) -> Case {
    let n = n.min(MOST / 2);
    let [a, b] = [0; 2].map(|_: i32| outline(random, n, 500_000, 600_000, 0));
    Case::new(a, b)
}

/// Two shapes whose merge is answered: about half of each is on the rim.
pub fn merged(random: &mut Random, n: usize, outline: Outline) -> Case {
    loop {
        let case = overlapping(random, [n, n - 4], 100_000, outline);
        if plain::merge(&case.a, 0, &case.b, 0, &mut [0; 2 * MOST]).refusal == 0 {
            return case;
        }
    }
}

/// Two shapes of these counts of corners, with middles at most that far from the origin, on opposite sides.
fn overlapping(random: &mut Random, counts: [usize; 2], away: i32, outline: Outline) -> Case {
    let (x, y) = (random.between(-away, away), random.between(-away, away));
    let [one, other] = [0; 2].map(|_: i32| random.between(500_000, 800_000));
    let a = outline(random, counts[0], one, x, y);
    Case::new(a, outline(random, counts[1], other, -x, -y))
}

/// Two shapes side by side, or one above the other.
pub fn apart(random: &mut Random, n: usize, outline: Outline) -> Case {
    let (x, y) = off(random, 450_000);
    let a = outline(random, n, 800_000, x, y);
    Case::new(a, outline(random, n - 4, 800_000, -x, -y))
}

/// A place that far to one side of the origin, or above it or below it.
fn off(random: &mut Random, far: i32) -> (i32, i32) {
    let near = random.between(-100_000, 100_000);
    let ways = [(far, near), (-far, near), (near, far), (near, -far)];
    ways[random.below(4) as usize]
}

/// The first shape, with 4 corners less, well inside the second.
pub fn nested(random: &mut Random, n: usize, outline: Outline) -> Case {
    let size = random.between(200_000, 400_000);
    let [x, y] = [0; 2].map(|_: i32| random.between(-50_000, 50_000));
    let a = outline(random, n - 4, size, x, y);
    Case::new(a, outline(random, n, 1_600_000, 0, 0))
}

/// An obstacle of n corners and a cart of 8 that is over it.
pub fn under_cart(random: &mut Random, n: usize, outline: Outline) -> Case {
    let [x, y] = [0; 2].map(|_: i32| random.between(-100_000, 100_000));
    with_cart(random, n, [x, y], outline)
}

/// An obstacle of n corners and a cart of 8 beside it.
pub fn beside_cart(random: &mut Random, n: usize, outline: Outline) -> Case {
    let (x, y) = off(random, 450_000);
    with_cart(random, n, [x, y], outline)
}

/// An obstacle of n corners about the origin, and a cart of 8.
fn with_cart(random: &mut Random, n: usize, [x, y]: [i32; 2], outline: Outline) -> Case {
    let obstacle = outline(random, n, 800_000, 0, 0);
    Case::new(obstacle, outline(random, 8, 1200, x, y))
}

/// A place beside an obstacle of n corners.
pub fn near_place(random: &mut Random, n: usize, outline: Outline) -> Case {
    let (x, y) = off(random, 450_000);
    Case::new(vec![x, y], outline(random, n, 800_000, 0, 0))
}

/// A place in an obstacle of n corners.
pub fn at_place(random: &mut Random, n: usize, outline: Outline) -> Case {
    let [x, y] = [0; 2].map(|_: i32| random.between(-100_000, 100_000));
    Case::new(vec![x, y], outline(random, n, 800_000, 0, 0))
}

/// Two obstacles of n corners side by side, or one above the other, and a cart of 8 that passes between them.
pub fn passing(random: &mut Random, n: usize, outline: Outline) -> Case {
    let case = apart(random, n, outline);
    let cart = outline(random, 8, 1200, 0, 0);
    Case { cart, ..case }
}

/// The same with obstacles that overlap.
pub fn stuck(random: &mut Random, n: usize, outline: Outline) -> Case {
    let case = crossing(random, n, outline);
    let cart = outline(random, 8, 1200, 0, 0);
    Case { cart, ..case }
}

/// An obstacle of n corners about the origin, and a cart of 8 that drives into it, in any direction.
pub fn driving_in(random: &mut Random, n: usize, outline: Outline) -> Case {
    let (x, y) = off(random, 700_000);
    let to = [0; 2].map(|_: i32| random.between(-100_000, 100_000));
    with_way(random, n, [[x, y], to], outline)
}

/// The same, but the cart drives past a corner of the box about the obstacle.
pub fn driving_past(random: &mut Random, n: usize, outline: Outline) -> Case {
    let (x, y) = off(random, 920_000);
    with_way(random, n, [[x, y], [-y, x]], outline)
}

fn with_way(random: &mut Random, n: usize, way: [[i32; 2]; 2], outline: Outline) -> Case {
    let case = with_cart(random, n, [0, 0], outline);
    Case { way, ..case }
}

/// A shape of 8 corners, a log of n records of 8 corners each, under names of their own, and the middle one of them.
pub fn stocked(random: &mut Random, n: usize, outline: Outline) -> Case {
    let room = |random: &mut Random| {
        let [x, y] = [0; 2].map(|_: i32| random.between(-900_000, 900_000));
        outline(random, 8, 2000, x, y)
    };
    let records = (0..n as u16).flat_map(|name| record(name, Some(3), &room(random)));
    let log = records.collect();
    Case {
        log,
        position: n / 2,
        ..Case::new(room(random), List::new())
    }
}

/// The same with a cart about the origin.
pub fn stocked_for_cart(random: &mut Random, n: usize, outline: Outline) -> Case {
    let case = stocked(random, n, outline);
    let a = outline(random, 8, 1200, 0, 0);
    Case { a, ..case }
}

/// The same with a cart that drives across the floor.
pub fn stocked_for_drive(random: &mut Random, n: usize, outline: Outline) -> Case {
    let case = stocked_for_cart(random, n, outline);
    let (x, y) = off(random, 900_000);
    let near = random.between(-900_000, 900_000);
    let to = if x.abs() == 900_000 {
        [-x, near]
    } else {
        [near, -y]
    };
    let way = [[x, y], to];
    Case { way, ..case }
}

/// A shape, and the same again: each overlaps the other and is inside it.
pub fn twice(random: &mut Random, n: usize, outline: Outline) -> Case {
    let case = moved_away(random, n, outline);
    Case::new(case.a.clone(), case.a)
}

/// A shape and the same one to the right of it: sum and merge are answered at any size, since their edges are parallel,
/// and clearance and tangents do all their work. The log has n records of a point, each under a name of its own.
pub fn moved_away(random: &mut Random, n: usize, outline: Outline) -> Case {
    let a = outline(random, n, 400_000, -250_000, 0);
    let b = moved(&a, 500_000, 1000);
    let point = |random: &mut Random| [0; 2].map(|_: i32| random.between(-1000, 1000));
    let records = (0..n as u16).flat_map(|name| record(name, Some(3), &point(random)));
    let log = with_room(records.collect(), &a);
    Case {
        log,
        ..Case::new(a, b)
    }
}

/// A shape of n corners, and a log of four records of a quarter as many, named 0 to 3.
pub fn kept(random: &mut Random, n: usize, outline: Outline) -> Case {
    let a = outline(random, n, 800_000, 0, 0);
    let records = (0..4).flat_map(|k| {
        let list = outline(random, n / 4, 800_000, 0, 0);
        record(k, Some(3), &list)
    });
    let log = with_room(records.collect(), &a);
    Case {
        log,
        ..Case::new(a, List::new())
    }
}

/// A log with just enough room for one more record, of that shape.
fn with_room(mut log: Vec<u8>, shape: &[i32]) -> Vec<u8> {
    let room = record(0, Some(0), shape).len();
    log.extend(vec![0; room]);
    log
}

#[cfg(test)]
mod tests {
    use super::*;
    use crate::runs::NAME;
    use crate::shapes::{polygon, regular};

    const SIZES: [usize; 4] = [32, 100, 500, MOST];

    /// What the sum is refused, or 0.
    fn refused(make: Make, n: usize, outline: Outline) -> u64 {
        let case = make(&mut Random::new(7), n, outline);
        plain::sum(&case.a, 0, &case.b, 0, &mut [0; 2 * MOST]).refusal
    }

    #[test]
    fn sums_are_refused_as_their_rows_say() {
        for n in SIZES {
            assert_eq!(refused(summed, n, polygon), 0);
            assert_eq!(refused(summed, n, regular), 0);
            assert_eq!(refused(alike, n, polygon), 0);
            assert_eq!(refused(large, n, polygon), 6);
            assert_eq!(refused(far, n, polygon), 7);
        }
        assert_eq!(refused(under_cart, MOST - 8, polygon), 0);
    }

    /// How two shapes relate.
    fn relation(make: Make, n: usize, outline: Outline) -> u64 {
        let case = make(&mut Random::new(7), n, outline);
        let answer = plain::relation(&case.a, 0, &case.b, 0);
        assert_eq!(answer.refusal, 0);
        answer.values[0]
    }

    #[test]
    fn shapes_stand_as_their_rows_say() {
        for n in SIZES {
            for outline in [polygon as Outline, regular] {
                assert_eq!(relation(apart, n, outline), 0);
                assert_eq!(relation(crossing, n, outline), 2);
            }
            assert_eq!(relation(beside_cart, n - 8, polygon), 0);
            assert_eq!(relation(under_cart, n - 8, polygon), 2);
        }
    }

    #[test]
    fn carts_drive_as_their_rows_say() {
        for n in SIZES {
            for (make, meets) in [(driving_in as Make, 1), (driving_past, 0)] {
                let case = make(&mut Random::new(7), n - 8, polygon);
                let [from, to] = case.way;
                let answer = plain::contact(&case.a, 3, &case.b, 3, from, to);
                assert_eq!((answer.refusal, answer.values[0]), (0, meets));
            }
        }
    }

    #[test]
    fn floors_have_neighbours_and_gaps() {
        let case = stocked(&mut Random::new(7), 40, polygon);
        let entry = plain::log_entry(&case.log, case.position, &mut [0; 2 * MOST]);
        assert_eq!(entry.values[..3], [8, 20, 3]);
        assert_eq!(plain::log_nearest(&case.log, &case.a, 3, None).refusal, 0);
        let case = stocked_for_cart(&mut Random::new(7), 40, polygon);
        assert_eq!(plain::log_gap(&case.log, &case.a, 3).refusal, 0);
    }

    #[test]
    fn drives_go_across_floors() {
        let mut random = Random::new(7);
        let mut met = 0;
        for _ in 0..100 {
            let case = stocked_for_drive(&mut random, 100, polygon);
            let [from, to] = case.way;
            let answer = plain::log_contact(&case.log, &case.a, 3, from, to);
            assert_eq!(answer.refusal, 0);
            met += answer.values[0];
        }
        assert!(0 < met && met < 100);
    }

    #[test]
    fn rings_are_shapes() {
        for n in SIZES {
            let case = drawn(&mut Random::new(7), n, polygon);
            let mut out = [0; 2 * MOST];
            let answer = plain::ring(&case.a, 3, &mut out);
            assert_eq!((answer.refusal, answer.values[0]), (0, n as u64));
            assert_eq!(plain::judge(&out[..2 * n], 3).refusal, 0);
        }
    }

    #[test]
    fn logs_are_read_and_added_to() {
        for n in SIZES {
            let mut case = kept(&mut Random::new(7), n, polygon);
            let read = |log: &[u8]| plain::log_read(log, NAME, &mut [0; 2 * MOST]);
            assert_eq!(read(&case.log).values[0], n as u64 / 4);
            let added = plain::log_add(&mut case.log, NAME, &case.a, 3, usize::MAX);
            assert_eq!((added.refusal, added.values[0]), (0, 1));
            assert_eq!(read(&case.log).values[0], n as u64);
        }
    }
}
