//! W6, a sum in parts. A walk's state after some corners of the sum is found from the corners
//! themselves: each is the sum of one corner of either shape, and of no other two.

use crate::combine::{self, held_by};
use crate::plane::{Point, Shape};
use crate::refusal::Refusal;

/// How many edges of either shape are passed, and whether all corners are written.
#[derive(Clone, Copy, Debug, PartialEq, Eq)]
pub struct State {
    pub i: usize,
    pub j: usize,
    pub over: bool,
}

/// How many corners a call may write, and how many numbers its output holds.
#[derive(Clone, Copy, Debug, PartialEq, Eq)]
pub struct Call {
    pub k: usize,
    pub room: usize,
}

/// The states after none, one, .. and all corners of the sum, whatever refuses it.
pub fn places(a: &[Point], b: &[Point]) -> Vec<State> {
    let (mut i, mut j) = (0, 0);
    let mut places = Vec::new();
    for corner in combine::all_sums(a, b) {
        let (p, q) = parts_of(corner, a, b);
        i = passed(a, i, p);
        j = passed(b, j, q);
        places.push(State { i, j, over: false });
    }
    places.push(State {
        i: edges(a),
        j: edges(b),
        over: true,
    });
    places
}

/// The positions of the two corners that make a corner of the sum.
fn parts_of(corner: Point, a: &[Point], b: &[Point]) -> (usize, usize) {
    let second = |p: &Point| b.iter().position(|&q| *p + q == corner);
    let found = (0..).zip(a).find_map(|(i, p)| second(p).map(|j| (i, j)));
    found.expect("a corner of the sum is a sum of corners")
}

/// How many edges are passed at a corner, with the given number passed before: after the last comes the
/// first again.
fn passed(shape: &[Point], before: usize, corner: usize) -> usize {
    if corner < before { shape.len() } else { corner }
}

fn edges(shape: &[Point]) -> usize {
    if shape.len() == 1 { 0 } else { shape.len() }
}

/// The corners of one call, or 8, and how many are written after it.
pub fn part(sum: &[Point], written: usize, call: Call) -> Result<(Shape, usize), Refusal> {
    let end = sum.len().min(written.saturating_add(call.k));
    let corners = held_by(Some(call.room), sum[written..end].to_vec())?;
    Ok((corners, end))
}

/// One call from any state: its corners, and the state that is handed back.
pub fn from(a: &[Point], b: &[Point], state: State, call: Call) -> Result<(Shape, State), Refusal> {
    let places = places(a, b);
    let written = places.iter().position(|place| *place == state);
    let written = written.ok_or(Refusal::plain(14))?;
    let (corners, end) = part(&combine::sum(a, b)?, written, call)?;
    Ok((corners, places[end]))
}
