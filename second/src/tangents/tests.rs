//! What 02 says of the pairs (each the only one, on one line, none nearer), the merge's edges for
//! the first two kinds, and what turning, mirroring and exchanging the shapes does to the lines.

use super::*;
use crate::hull::hull_of;
use crate::make::apart;
use crate::make::dice::Dice;
use crate::plane::{Shape, dot, edge_ends, point};

type Line = (Point, Point);

/// Two shapes with corners in two boxes, which share a border or are up to three steps apart.
fn small_pair(dice: &mut Dice) -> (Shape, Shape) {
    let (size, across) = (dice.between(1, 5), dice.between(0, 8));
    let mut shape = |left: i64, low: i64| {
        let count = dice.between(1, 6);
        let corner = |_| point(left + dice.between(0, size), low + dice.between(0, size));
        hull_of((0..count).map(corner).collect())
    };
    (shape(0, 0), shape(across, across / 2))
}

/// Made pairs and small ones, by turns; only those that are apart, and of few corners.
fn apart_pairs(seed: u64, count: usize) -> Vec<(Shape, Shape)> {
    let mut dice = Dice::new(seed);
    let pairs = (0..count).map(|number| match number % 2 {
        0 => small_pair(&mut dice),
        _ => apart::mostly(&mut dice),
    });
    let wanted =
        |(a, b): &(Shape, Shape)| a.len() * b.len() <= 400 && relation(a, b) == Relation::Apart;
    let kept: Vec<_> = pairs.filter(wanted).collect();
    assert!(kept.len() > count / 2, "few are apart: {}", kept.len());
    kept
}

/// The lines themselves, which stay where the positions change.
fn lines(a: &[Point], b: &[Point]) -> [Line; 4] {
    let found = tangents(a, b).expect("the shapes are apart");
    found.map(|(i, j)| (a[i], b[j]))
}

fn changed(shape: &[Point], change: fn(Point) -> Point) -> Shape {
    hull_of(shape.iter().map(|&c| change(c)).collect())
}

#[test]
fn each_kind_has_one_line_and_one_nearest_pair_on_it() {
    let mut choices = 0;
    for (a, b) in apart_pairs(21, 8000) {
        for kind in KINDS {
            let (i, j) = only_nearest(&a, &b, kind);
            let pairs = pairs_of_kind(&a, &b, kind);
            let on_line = |&c: &Point| turn(a[i], b[j], c) == 0;
            let expected: usize = [&a, &b]
                .map(|s| s.iter().filter(|c| on_line(c)).count())
                .iter()
                .product();
            assert_eq!(pairs.len(), expected, "{kind:?} {a:?} {b:?}");
            assert!(pairs.iter().all(|&(k, l)| on_line(&a[k]) && on_line(&b[l])));
            let distance = |(k, l): Pair| squared_distance(a[k], b[l]);
            let nearer = pairs.iter().any(|&pair| distance(pair) < distance((i, j)));
            assert!(!nearer, "{kind:?} {a:?} {b:?}");
            choices += usize::from(pairs.len() > 1);
        }
    }
    assert!(choices > 2000, "lines with several pairs: {choices}");
}

#[test]
fn lines_that_stay_on_one_side_are_on_edges_of_the_merge() {
    for (a, b) in apart_pairs(22, 4000) {
        let merged = hull_of([&a[..], &b[..]].concat());
        let on_edge = |(from, to): Line| {
            (0..merged.len()).any(|edge| {
                let (p, q) = edge_ends(&merged, edge);
                let on = |c: Point| turn(p, q, c) == 0 && dot(p - c, q - c) <= 0;
                on(from) && on(to) && dot(q - p, to - from) > 0
            })
        };
        let [left, right, ..] = lines(&a, &b);
        assert!(on_edge(left) && on_edge((right.1, right.0)), "{a:?} {b:?}");
    }
}

#[test]
fn exchanged_shapes_turn_each_line_round() {
    for (a, b) in apart_pairs(23, 4000) {
        let round = lines(&b, &a).map(|(from, to)| (to, from));
        let [left, right, first_left, second_left] = lines(&a, &b);
        assert_eq!(round, [right, left, first_left, second_left], "{a:?} {b:?}");
    }
}

#[test]
fn lines_turn_with_the_shapes_and_change_sides_in_a_mirror() {
    let mirror: fn(Point) -> Point = |c| point(-c.x, c.y);
    for (a, b) in apart_pairs(24, 4000) {
        let [left, right, first_left, second_left] = lines(&a, &b);
        let of_changed = |change| lines(&changed(&a, change), &changed(&b, change));
        let both = |change: fn(Point) -> Point, (from, to): Line| (change(from), change(to));
        let turned =
            [left, right, first_left, second_left].map(|line| both(Point::quarter_turned, line));
        assert_eq!(of_changed(Point::quarter_turned), turned, "{a:?} {b:?}");
        let mirrored = [right, left, second_left, first_left].map(|line| both(mirror, line));
        assert_eq!(of_changed(mirror), mirrored, "{a:?} {b:?}");
    }
}

#[test]
fn shapes_in_one_line_have_one_line_four_times() {
    let mut dice = Dice::new(25);
    for _ in 0..500 {
        let (a, b) = apart::on_one_line(&mut dice);
        if relation(&a, &b) == Relation::Apart {
            let [first, others @ ..] = lines(&a, &b);
            assert_eq!(others, [first; 3], "{a:?} {b:?}");
        }
    }
}

#[test]
fn refusal_9_stands_for_touching_and_for_overlapping() {
    let mut dice = Dice::new(26);
    let (mut touching, mut overlapping) = (0, 0);
    for _ in 0..4000 {
        let (a, b) = small_pair(&mut dice);
        let is = relation(&a, &b);
        assert_eq!(
            tangents(&a, &b) == Err(Refusal::plain(9)),
            is != Relation::Apart,
            "{a:?} {b:?}"
        );
        touching += usize::from(is == Relation::Touching);
        overlapping += usize::from(is == Relation::Overlapping);
    }
    assert!(
        touching > 100 && overlapping > 100,
        "{touching} {overlapping}"
    );
}

#[test]
fn the_widest_turns_stay_exact() {
    let r = 1_000_000;
    let a = [point(-r, -r), point(r, -r)];
    let b = [point(-r, r), point(r, r)];
    assert_eq!(tangents(&a, &b), Ok([(1, 1), (0, 0), (1, 0), (0, 1)]));
}
