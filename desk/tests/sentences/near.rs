//! The places where two shapes are nearest, from the words of a clearance.
use crate::answers::{number, position};
use crate::case::{Case, List};
use crate::said::rounding;

/// The numbers in the words for each corner and for each edge of a shape.
pub struct Near {
    corners: Vec<Vec<i128>>,
    edges: Vec<Vec<i128>>,
}

impl Near {
    /// Returns those of a shape of the question.
    pub fn given(case: &Case, which: usize) -> Near {
        let list = &case.lists[which];
        let edge = |at| [list.edge(at), case.label(which)].concat();
        Near {
            corners: of_each(list, |at| case.corner(which, at)),
            edges: of_each(list, edge),
        }
    }

    /// Returns those of the shape of a record: its name comes before the place of a point, and after other places.
    pub fn recorded(list: &List, name: i128) -> Near {
        let corner = |at| match list.corners().len() {
            1 => [vec![name], list.corner(0).to_vec()].concat(),
            _ => [list.corner(at).to_vec(), vec![name]].concat(),
        };
        let edge = |at| [list.edge(at), vec![name]].concat();
        Near {
            corners: of_each(list, corner),
            edges: of_each(list, edge),
        }
    }
}

/// What each corner of a list gives.
fn of_each(list: &List, of: impl Fn(usize) -> Vec<i128>) -> Vec<Vec<i128>> {
    (0..list.corners().len()).map(of).collect()
}

/// Returns the numbers of a distance and of the places that it is between.
pub fn places(words: &[&str], [a, b]: &[Near; 2], said: &str) -> Result<Vec<i128>, String> {
    let [first, second] = [1, 2].map(|at| position(words[at]));
    if words[0] == "cc" {
        let [squared, root] = [3, 4].map(|at| number(words[at]));
        rounding(said, squared, squared, root)?;
        let corners = [a.corners[first].clone(), b.corners[second].clone()];
        return Ok([vec![root], corners.concat()].concat());
    }
    let [turn, squared, rounded] = [3, 4, 5].map(|at| number(words[at]));
    rounding(said, turn, squared, rounded)?;
    let (with_corner, with_edge) = if words[0] == "ce" { (a, b) } else { (b, a) };
    let places = [
        with_corner.corners[first].clone(),
        with_edge.edges[second].clone(),
    ];
    Ok([vec![rounded], places.concat()].concat())
}
