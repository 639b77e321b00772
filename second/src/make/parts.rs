//! Sums in parts: calls that cut random sums anywhere, and states at, beside and past their places;
//! and for a few small sums all cuts and all states.

use super::dice::Dice;
use super::fields::two_lists;
use super::{floors, line, pairs, shape_text};
use crate::parts::{Call, State, places};
use crate::plane::{Point, Shape, point};
use std::io::{self, Write};

const NO_WALKS: &[&str] = &["0 0 2", "-1 0 0", "0 -1 0", "0 0 -1"];

pub fn parts(dice: &mut Dice) -> Vec<String> {
    let (mut fields, all) = shapes(dice);
    fields.push(calls_text(&calls(dice, all.len() - 1)));
    fields
}

pub fn part(dice: &mut Dice) -> Vec<String> {
    let (mut fields, all) = shapes(dice);
    let at = dice.below(all.len());
    let state = state_text(beside(dice, all[at]));
    fields.push(if dice.one_in(40) {
        dice.pick(NO_WALKS).to_string()
    } else {
        state
    });
    let call = call(dice, all.len() - 1 - at);
    fields.push(format!("{} {}", call.k, call.room));
    fields
}

/// The texts of two lists, and the places of their sum; other places, if one of them is no shape.
fn shapes(dice: &mut Dice) -> (Vec<String>, Vec<State>) {
    let pair = pairs::for_sum(dice);
    let all = places(&pair.0, &pair.1);
    let lists = two_lists(dice, |_| pair.clone());
    (floors::texts(dice, &lists), all)
}

/// Calls for `corners` corners, in a few large parts, in many small ones, or not to the end.
fn calls(dice: &mut Dice, corners: usize) -> Vec<Call> {
    let most = dice.pick(&[1, 2, 3, corners / 3 + 1, corners + 1]);
    let mut left = corners;
    let mut calls = Vec::new();
    while calls.len() < 300 && !dice.one_in(if left == 0 { 2 } else { 60 }) {
        let call = Call {
            k: dice.below(most + 1),
            ..call(dice, left.min(most))
        };
        if call.room >= 2 * call.k.min(left) {
            left -= call.k.min(left);
        }
        calls.push(call);
    }
    calls
}

/// A call where `left` corners are left: mostly with room for its own, at times with a number too
/// few, and at times for more corners than there are.
fn call(dice: &mut Dice, left: usize) -> Call {
    let k = match dice.below(12) {
        0 => 0,
        1 => left,
        2 => left + 1,
        3 => dice.pick(&[512, 513, 65_536, i32::MAX as usize]),
        _ => dice.below(left + 2),
    };
    let need = 2 * k.min(left);
    let room = match dice.below(10) {
        0 => need.saturating_sub(1),
        1 => 0,
        2 => need + dice.below(4),
        3 => i32::MAX as usize,
        _ => need,
    };
    Call { k, room }
}

/// The place itself, mostly; or a state beside it.
fn beside(dice: &mut Dice, place: State) -> State {
    let mut state = place;
    match dice.below(12) {
        0 => state.i += 1,
        1 => state.i = state.i.saturating_sub(1),
        2 => state.j += 1,
        3 => state.j = state.j.saturating_sub(1),
        4 => state.over = !state.over,
        5 => state.i = dice.pick(&[512, i32::MAX as usize]),
        _ => {}
    }
    state
}

fn state_text(state: State) -> String {
    format!("{} {} {}", state.i, state.j, u8::from(state.over))
}

fn calls_text(calls: &[Call]) -> String {
    let words: Vec<String> = calls
        .iter()
        .map(|c| format!("{}:{}", c.k, c.room))
        .collect();
    words.join(" ")
}

// ---- small sums

/// Points, segments and polygons, some with edges of one direction.
fn small() -> Vec<Shape> {
    let shape = |corners: &[(i64, i64)]| corners.iter().map(|&(x, y)| point(x, y)).collect();
    vec![
        shape(&[(1, 1)]),
        shape(&[(0, 0), (2, 0)]),
        shape(&[(0, 0), (0, 1)]),
        shape(&[(0, 0), (1, 0), (0, 1)]),
        shape(&[(0, 0), (2, 0), (2, 2), (0, 2)]),
        shape(&[(0, 0), (3, 1), (1, 2)]),
    ]
}

/// Writes, for every two small shapes, each state about their sum with calls for none, one, two and
/// all corners, and each way to cut the sum.
pub fn write_small(mut to: impl Write) -> io::Result<()> {
    let shapes = small();
    for (a, b) in shapes
        .iter()
        .flat_map(|a| shapes.iter().map(move |b| (a, b)))
    {
        write_states(a, b, &mut to)?;
        write_cuts(a, b, &mut to)?;
    }
    to.flush()
}

fn write_states(a: &[Point], b: &[Point], to: &mut impl Write) -> io::Result<()> {
    for (i, j) in (0..a.len() + 2).flat_map(|i| (0..b.len() + 2).map(move |j| (i, j))) {
        for over in [false, true] {
            for call in ["0 0", "1 2", "2 4", "9 18"] {
                let state = state_text(State { i, j, over });
                let fields = [shape_text(a), shape_text(b), state, call.to_string()];
                writeln!(to, "{}", line("part", &fields))?;
            }
        }
    }
    Ok(())
}

/// A cut is a set of corners: a part ends after each of them, and the last after the last corner.
fn write_cuts(a: &[Point], b: &[Point], to: &mut impl Write) -> io::Result<()> {
    let corners = places(a, b).len() - 1;
    for cut in 0..1u32 << (corners - 1) {
        let mut calls = vec![Call { k: 0, room: 0 }];
        for corner in 0..corners {
            let part = calls.last_mut().expect("there is one");
            *part = Call {
                k: part.k + 1,
                room: part.room + 2,
            };
            if cut >> corner & 1 == 1 {
                calls.push(Call { k: 0, room: 0 });
            }
        }
        let fields = [shape_text(a), shape_text(b), calls_text(&calls)];
        writeln!(to, "{}", line("parts", &fields))?;
    }
    Ok(())
}
