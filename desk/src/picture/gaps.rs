//! Gaps that are too narrow to be seen on the map.
use super::frame::{Frame, Rect};
use super::scene::{Figure, Role, Scene, Stroke, gap_of};
use crate::answer::{Refused, clearance};
use crate::distance::Distance;
use crate::given::Pair;
use crate::sentence;

/// A gap that is narrower than this on the page, in pixels, is also drawn larger, below the map.
const NARROW: f64 = 3.0;

/// A narrow gap: between which figures, where, and how wide.
#[derive(Clone, Debug, PartialEq)]
pub struct Narrow {
    /// Its width, and the figures.
    pub title: String,
    /// Its width.
    pub distance: Distance,
    /// The line across it.
    pub stroke: Stroke,
}

/// Returns the gaps of a scene that can hardly be seen, the narrowest first.
///
/// # Errors
/// A question on two figures that the library refuses.
pub fn narrow(scene: &Scene, frame: &Frame) -> Result<Vec<Narrow>, Refused> {
    let things: Vec<&Figure> = scene
        .figures
        .iter()
        .filter(|figure| is_solid(figure.role))
        .collect();
    let boxes: Vec<Option<Rect>> = things.iter().map(|figure| figure.around()).collect();
    let mut narrow = Vec::new();
    for (at, (a, a_box)) in things.iter().zip(&boxes).enumerate() {
        for (b, b_box) in things.iter().zip(&boxes).skip(at + 1) {
            let near = a_box
                .zip(*b_box)
                .is_some_and(|(a, b)| a.widened(NARROW / frame.scale).shared(b.widened(0.5)) > 0.0);
            if near {
                narrow.extend(narrow_gap(a, b, frame)?);
            }
        }
    }
    narrow.sort_by_key(|gap: &Narrow| gap.distance.millimetres);
    Ok(narrow)
}

/// The gap between two figures, if it is narrow on the page.
fn narrow_gap(a: &Figure, b: &Figure, frame: &Frame) -> Result<Option<Narrow>, Refused> {
    let pair = Pair {
        a: a.shape.clone(),
        b: b.shape.clone(),
    };
    let found = clearance(&pair)?;
    let Some(((distance, _), stroke)) = sentence::nearest(&pair, found).zip(gap_of(&pair, found))
    else {
        return Ok(None);
    };
    let title = format!("{distance} between {} and {}", a.label, b.label);
    let is_narrow = stroke.length() * frame.scale < NARROW;
    Ok(is_narrow.then_some(Narrow {
        title,
        distance,
        stroke,
    }))
}

/// Whether a figure is a thing that another may come near to.
fn is_solid(role: Role) -> bool {
    matches!(role, Role::Shape | Role::Cart)
}
