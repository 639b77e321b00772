//! Clearance against 02's words: no two points, taken as means of the corners under small weights,
//! are nearer, and two points are as near.

use super::*;
use crate::hull::hull_of;
use crate::make::dice::Dice;
use crate::plane::{Shape, point};

/// The sum of the corners under the weights, and the sum of the weights.
type Mean = (Point, i64);

fn small_shape(dice: &mut Dice) -> Shape {
    let count = dice.between(1, 4);
    let points = (0..count).map(|_| point(dice.between(0, 5), dice.between(0, 5)));
    hull_of(points.collect())
}

fn mean(shape: &[Point], weights: &[i64]) -> Mean {
    let heap = shape.iter().zip(weights);
    let sum = heap.fold(point(0, 0), |sum, (&corner, &weight)| sum + corner * weight);
    (sum, weights.iter().sum())
}

/// All means under weights from 0 to 3, not all 0.
fn means(shape: &[Point]) -> Vec<Mean> {
    let digit = |number: usize, place: usize| (number >> (2 * place) & 3) as i64;
    let weights = |number: usize| (0..shape.len()).map(move |place| digit(number, place));
    (1..1 << (2 * shape.len()))
        .map(|number| mean(shape, &weights(number).collect::<Vec<i64>>()))
        .collect()
}

/// The squared distance of two means, top and bottom.
fn squared((p, v): Mean, (q, w): Mean) -> (i128, i128) {
    let gap = p * w - q * v;
    let share = i128::from(v) * i128::from(w);
    (dot(gap, gap), share * share)
}

/// The two points that the answer speaks of.
fn points_of(found: Between, a: &[Point], b: &[Point]) -> (Mean, Mean) {
    match found {
        Between::Corners { i, j, .. } => ((a[i], 1), (b[j], 1)),
        Between::CornerEdge(against) => ((a[against.corner], 1), foot(b, a, against)),
        Between::EdgeCorner(against) => (foot(a, b, against), (b[against.corner], 1)),
    }
}

fn foot(edges: &[Point], corners: &[Point], against: Against) -> Mean {
    let (p, q) = edge_ends(edges, against.edge);
    let small = |number: i128| i64::try_from(number).expect("coordinates are small");
    let along = dot(q - p, corners[against.corner] - p);
    let before = small(against.q - along);
    mean(&[p, q], &[before, small(along)])
}

#[test]
fn no_two_points_are_nearer_and_two_are_as_near() {
    let mut dice = Dice::new(20);
    let mut kinds = [0; 3];
    while kinds.iter().sum::<usize>() < 1500 {
        let (a, b) = (small_shape(&mut dice), small_shape(&mut dice));
        let Some((found, rounded)) = clearance(&a, &b) else {
            continue;
        };
        let (top, bottom) = found.squared();
        for &p in &means(&a) {
            for &q in &means(&b) {
                let (other_top, other_bottom) = squared(p, q);
                assert!(top * other_bottom <= other_top * bottom, "{a:?} {b:?}");
            }
        }
        let (p, q) = points_of(found, &a, &b);
        let (own_top, own_bottom) = squared(p, q);
        assert_eq!(top * own_bottom, own_top * bottom, "{a:?} {b:?}");
        assert!(rounded * rounded * bottom <= top);
        assert!(top < (rounded + 1) * (rounded + 1) * bottom);
        kinds[usize::from(kind(found)) - 1] += 1;
    }
    assert!(kinds.iter().all(|&count| count > 100), "{kinds:?}");
}

fn kind(found: Between) -> u8 {
    match found {
        Between::Corners { .. } => 1,
        Between::CornerEdge(_) => 2,
        Between::EdgeCorner(_) => 3,
    }
}

#[test]
fn exchanged_shapes_have_the_same_distance() {
    let mut dice = Dice::new(21);
    for _ in 0..2000 {
        let (a, b) = crate::make::apart::mostly(&mut dice);
        if a.len() * b.len() > 20_000 {
            continue;
        }
        let distance = |found: Option<(Between, i128)>| found.map(|(at, w)| (at.squared(), w));
        let (one, other) = (distance(clearance(&a, &b)), distance(clearance(&b, &a)));
        match (one, other) {
            (Some(((top, bottom), w)), Some(((other_top, other_bottom), other_w))) => {
                assert_eq!((top * other_bottom, w), (other_top * bottom, other_w));
            }
            _ => assert_eq!(one, other),
        }
    }
}
