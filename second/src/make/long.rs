//! Shapes with a wanted number of corners, and pairs of them whose answers have about the most.

use super::dice::Dice;
use super::edges::{shape_from_edges, shortest_primitives};
use crate::hull::standard_list;
use crate::plane::{Point, Shape, point};
use crate::refusal::MOST_CORNERS;

/// A shape of exactly `count` corners, 3 or more: opposite edges in pairs, three more if odd.
pub fn of_corners(dice: &mut Dice, count: usize) -> Shape {
    let pool = pool_of(count);
    let chosen = dice.draw(&pool, pairs_for(count));
    shape_with(dice, count, &chosen)
}

/// Two shapes of these counts that share the directions of `shared` pairs of edges.
pub fn sharing(dice: &mut Dice, counts: (usize, usize), shared: usize) -> (Shape, Shape) {
    let (first, second) = (pairs_for(counts.0), pairs_for(counts.1));
    let drawn = dice.draw(&pool_of(2 * (first + second)), first + second - shared);
    let a = shape_with(dice, counts.0, &drawn[..first]);
    let b = shape_with(dice, counts.1, &drawn[first - shared..]);
    (a, b)
}

/// Two shapes whose sum has `total` corners; at most one has an odd count.
pub fn summing_to(dice: &mut Dice, total: usize) -> (Shape, Shape) {
    let first = 2 * (MOST_CORNERS / 7 + dice.below(MOST_CORNERS / 5));
    let shared = dice.pick(&[0, 0, 1, 7]);
    sharing(dice, (first, total - first + 2 * shared), shared)
}

/// About as many corners as a shape may have: two less to two more.
pub fn about_most(dice: &mut Dice) -> usize {
    MOST_CORNERS - 2 + dice.below(5)
}

/// One shape of `count` corners, its corners dealt out to two: their merge is that shape again.
pub fn dealt(dice: &mut Dice, count: usize) -> (Shape, Shape) {
    let whole = of_corners(dice, count);
    let by_turns = dice.one_in(2);
    let half = whole.len() / 2;
    let is_first = |i: usize| {
        if by_turns {
            i.is_multiple_of(2)
        } else {
            i < half
        }
    };
    let part = |first: bool| {
        let kept = (0..whole.len()).filter(|&i| is_first(i) == first);
        standard_list(kept.map(|i| whole[i]).collect())
    };
    (part(true), part(false))
}

fn pairs_for(count: usize) -> usize {
    if count.is_multiple_of(2) {
        count / 2
    } else {
        (count - 3) / 2
    }
}

/// Directions to choose from; the triangle's own three are left out.
fn pool_of(count: usize) -> Vec<Point> {
    let mut pool = shortest_primitives(count / 2 + count / 8 + 8);
    pool.retain(|&v| !triangle().contains(&v));
    pool
}

fn triangle() -> [Point; 3] {
    [point(1, 0), point(0, 1), point(1, 1)]
}

/// Each pair of edges gets its own length; stretched by a common factor.
fn shape_with(dice: &mut Dice, count: usize, directions: &[Point]) -> Shape {
    let factor = dice.pick(&[1, 1, 2, 9, 40]);
    let mut edges = Vec::new();
    for &direction in directions {
        let edge = direction * dice.between(1, factor);
        edges.extend([edge, -edge]);
    }
    if !count.is_multiple_of(2) {
        edges.extend([point(factor, 0), point(0, factor)]);
    }
    shape_from_edges(&edges)
}

#[cfg(test)]
mod tests {
    use super::*;
    use crate::combine::{merge, sum};

    #[test]
    fn counts_are_exact() {
        let mut dice = Dice::new(6);
        for count in (3..2 * MOST_CORNERS + 2).step_by(34) {
            assert_eq!(of_corners(&mut dice, count).len(), count);
        }
    }

    #[test]
    fn sums_and_merges_hit_the_limit() {
        let mut dice = Dice::new(7);
        for total in MOST_CORNERS - 1..MOST_CORNERS + 3 {
            let good = total <= MOST_CORNERS;
            let (a, b) = summing_to(&mut dice, total);
            assert_eq!(sum(&a, &b).is_ok_and(|s| s.len() == total), good);
            let (a, b) = dealt(&mut dice, total);
            assert_eq!(merge(&a, &b).is_ok_and(|s| s.len() == total), good);
        }
    }
}
