//! Judging a list ("What makes a shape" of document 01): every edge against every corner.

use crate::plane::{Point, Shape, edge_ends, point, turn};
use crate::refusal::{MOST_COORDINATE, MOST_CORNERS, Refusal};

/// The corners of the list, or its first refusal of 1 to 5. `shape` is 1 or 2, for the refusal.
pub fn judge(list: &[i32], shape: usize) -> Result<Shape, Refusal> {
    if list.is_empty() || list.len() % 2 == 1 {
        return Err(Refusal::of_shape(1, shape));
    }
    if list.len() / 2 > MOST_CORNERS {
        return Err(Refusal::of_shape(2, shape));
    }
    let corners = corners_in(list);
    if !corners.iter().all(in_range) {
        return Err(Refusal::of_shape(3, shape));
    }
    if let Some(broken) = broken_left_rule(&corners) {
        return Err(Refusal::left_rule(shape, broken));
    }
    if !begins_standard(&corners) {
        return Err(Refusal::of_shape(5, shape));
    }
    Ok(corners)
}

pub fn in_range(corner: &Point) -> bool {
    let within = |part: i64| (-MOST_COORDINATE..=MOST_COORDINATE).contains(&part);
    within(corner.x) && within(corner.y)
}

/// The points that a list of numbers holds.
pub fn corners_in(list: &[i32]) -> Shape {
    list.chunks_exact(2)
        .map(|pair| point(i64::from(pair[0]), i64::from(pair[1])))
        .collect()
}

/// Refusal 4's edge and corner: 0 and 1 for two equal corners, else by the left rule.
fn broken_left_rule(corners: &[Point]) -> Option<(usize, usize)> {
    match corners.len() {
        1 => None,
        2 => (corners[0] == corners[1]).then_some((0, 1)),
        _ => not_left(corners),
    }
}

/// The first edge, then the first other corner, where the corner is not strictly to the left.
/// "Other" goes by position: a corner that repeats an end of the edge is another one.
fn not_left(corners: &[Point]) -> Option<(usize, usize)> {
    let count = corners.len();
    for edge in 0..count {
        let (a, b) = edge_ends(corners, edge);
        for (corner, &c) in corners.iter().enumerate() {
            let is_end = corner == edge || corner == (edge + 1) % count;
            if !is_end && turn(a, b, c) <= 0 {
                return Some((edge, corner));
            }
        }
    }
    None
}

/// The first corner has the smallest y, and the smallest x among those.
fn begins_standard(corners: &[Point]) -> bool {
    let first = corners[0].low_then_left();
    corners.iter().all(|c| first <= c.low_then_left())
}

#[cfg(test)]
mod tests {
    use super::*;

    fn answer(list: &[i32]) -> String {
        match judge(list, 1) {
            Ok(corners) => format!("ok {}", corners.len()),
            Err(refusal) => refusal.to_string(),
        }
    }

    #[test]
    fn twice_winding_list_is_refused_although_it_turns_left_everywhere() {
        let list = [0, 0, 2, 0, 1, 2, -4, 1, -3, -4, 4, -4, 5, 3, -2, 4];
        assert_eq!(answer(&list), "no 4 shape 1 edge 0 corner 4");
    }

    #[test]
    fn refusals_come_in_number_order() {
        assert_eq!(answer(&[0; 2 * MOST_CORNERS + 3]), "no 1 shape 1");
        assert_eq!(answer(&[2_000_000; 2 * MOST_CORNERS + 2]), "no 2 shape 1");
        assert_eq!(answer(&[2_000_000; 4]), "no 3 shape 1");
        assert_eq!(answer(&[7; 4]), "no 4 shape 1 edge 0 corner 1");
        assert_eq!(answer(&[0, 0, -1, 0]), "no 5 shape 1");
    }
}
