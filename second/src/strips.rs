//! Width and clearance against document 02's W9: over all directions of a box no spread of a shape is
//! below its width, and no gap between two shapes is above their clearance; each is had in its own
//! direction.

use crate::clearance::{Against, Between, clearance};
use crate::hull::hull_of;
use crate::make::dice::Dice;
use crate::measure::width;
use crate::plane::{Point, Shape, dot, edge_ends, point, turn, value};

const MOST_PART: i64 = 12;

fn small_shape(dice: &mut Dice) -> Shape {
    let count = dice.between(1, 7);
    let points = (0..count).map(|_| point(dice.between(-9, 9), dice.between(-9, 9)));
    hull_of(points.collect())
}

/// All directions of the box but (0,0).
fn directions() -> impl Iterator<Item = Point> {
    let box_of =
        (-MOST_PART..=MOST_PART).flat_map(|u| (-MOST_PART..=MOST_PART).map(move |v| point(u, v)));
    box_of.filter(|&d| d != point(0, 0))
}

fn greatest(shape: &[Point], d: Point) -> i128 {
    let values = shape.iter().map(|&p| value(d, p));
    values.max().expect("a shape has a corner")
}

fn spread(shape: &[Point], d: Point) -> i128 {
    greatest(shape, d) + greatest(shape, -d)
}

/// From the greatest value of b to the least of a.
fn gap(a: &[Point], b: &[Point], d: Point) -> i128 {
    -greatest(a, -d) - greatest(b, d)
}

/// The direction out of an edge.
fn out_of(shape: &[Point], edge: usize) -> Point {
    let (p, q) = edge_ends(shape, edge);
    -(q - p).quarter_turned()
}

/// The direction from b to a that the answer speaks of.
fn towards(found: Between, a: &[Point], b: &[Point]) -> Point {
    match found {
        Between::Corners { i, j, .. } => a[i] - b[j],
        Between::CornerEdge(at) => away(b, a, at),
        Between::EdgeCorner(at) => -away(a, b, at),
    }
}

/// From the edge to the corner.
fn away(edges: &[Point], corners: &[Point], at: Against) -> Point {
    let (p, q) = edge_ends(edges, at.edge);
    let out = out_of(edges, at.edge);
    if turn(p, q, corners[at.corner]) < 0 {
        out
    } else {
        -out
    }
}

#[test]
fn no_direction_is_narrower_than_the_width() {
    let mut dice = Dice::new(30);
    let mut tried = 0;
    while tried < 1000 {
        let shape = small_shape(&mut dice);
        let Ok(found) = width(&shape) else {
            continue;
        };
        for d in directions() {
            let s = spread(&shape, d);
            assert!(
                found.t * found.t * dot(d, d) <= s * s * found.q,
                "{shape:?} {d:?}"
            );
        }
        let own = out_of(&shape, found.edge);
        assert_eq!(
            (spread(&shape, own), dot(own, own)),
            (found.t, found.q),
            "{shape:?}"
        );
        tried += 1;
    }
}

#[test]
fn no_corridor_is_wider_than_the_clearance() {
    let mut dice = Dice::new(31);
    let mut kinds = [0; 3];
    while kinds.iter().sum::<usize>() < 1000 {
        let (a, b) = (small_shape(&mut dice), small_shape(&mut dice));
        let Some((found, _)) = clearance(&a, &b) else {
            continue;
        };
        let (top, bottom) = found.squared();
        for d in directions() {
            let g = gap(&a, &b, d).max(0);
            assert!(g * g * bottom <= top * dot(d, d), "{a:?} {b:?} {d:?}");
        }
        let own = towards(found, &a, &b);
        let g = gap(&a, &b, own);
        assert!(g > 0, "{a:?} {b:?}");
        assert_eq!(g * g * bottom, top * dot(own, own), "{a:?} {b:?}");
        let kind = match found {
            Between::Corners { .. } => 0,
            Between::CornerEdge(_) => 1,
            Between::EdgeCorner(_) => 2,
        };
        kinds[kind] += 1;
    }
    assert!(kinds.iter().all(|&count| count > 50), "{kinds:?}");
}
