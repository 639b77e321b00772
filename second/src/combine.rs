//! Sum, merge and mirror of document 01, and grow, straight from their sets of points, with refusals
//! 6, 7, 8.

use crate::hull::hull_of;
use crate::judge::in_range;
use crate::plane::{Point, Shape};
use crate::refusal::{MOST_CORNERS, Refusal};

/// The shape of all corner-plus-corner points.
pub fn sum(a: &[Point], b: &[Point]) -> Result<Shape, Refusal> {
    not_too_far(not_too_many(all_sums(a, b))?)
}

/// The same, however many corners it has and wherever they are.
pub fn all_sums(a: &[Point], b: &[Point]) -> Shape {
    let pairs = a.iter().flat_map(|&p| b.iter().map(move |&q| p + q));
    hull_of(pairs.collect())
}

/// The shape of both corner lists taken together.
pub fn merge(a: &[Point], b: &[Point]) -> Result<Shape, Refusal> {
    not_too_many(hull_of([a, b].concat()))
}

/// The shape of all obstacle-corner minus cart-corner points.
pub fn grow(obstacle: &[Point], cart: &[Point]) -> Result<Shape, Refusal> {
    let pairs = obstacle
        .iter()
        .flat_map(|&p| cart.iter().map(move |&q| p - q));
    not_too_far(not_too_many(hull_of(pairs.collect()))?)
}

/// The shape of all (-x, -y).
pub fn mirror(shape: &[Point]) -> Shape {
    hull_of(shape.iter().map(|&c| -c).collect())
}

/// The answer itself if the lent output, counted in numbers, holds it; no room named holds all.
pub fn held_by(room: Option<usize>, answer: Shape) -> Result<Shape, Refusal> {
    match room {
        Some(room) if room < 2 * answer.len() => Err(Refusal::plain(8)),
        _ => Ok(answer),
    }
}

fn not_too_many(answer: Shape) -> Result<Shape, Refusal> {
    if answer.len() > MOST_CORNERS {
        return Err(Refusal::plain(6));
    }
    Ok(answer)
}

fn not_too_far(answer: Shape) -> Result<Shape, Refusal> {
    if !answer.iter().all(in_range) {
        return Err(Refusal::plain(7));
    }
    Ok(answer)
}

#[cfg(test)]
mod tests;
