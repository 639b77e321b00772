//! What a cart needs in the direction of a gap. The two furthest corners of its outline are the library's answers; the
//! direction, the sum and its rounding are the desk's own.
use crate::distance::Distance;
use crate::given::{Corner, Edge, Pair};
use crate::refusal::divisor;
use cocklesway::Nearest;
use std::fmt;

/// How much of a gap a cart needs, and in which direction.
#[derive(Clone, Copy, Debug, PartialEq, Eq)]
pub struct Need {
    /// The direction across the gap, in lowest terms.
    pub direction: [i32; 2],
    /// The millimetres, rounded up.
    pub millimetres: u64,
    /// Whether it is exactly so much.
    pub exact: bool,
}

/// Returns the direction in which two shapes are nearest, in lowest terms, from the first to the second or back.
#[must_use]
pub fn direction(Pair { a, b }: &Pair, nearest: Nearest) -> [i32; 2] {
    let along =
        |Edge(Corner([x, y]), Corner([u, v])): Edge| [u.saturating_sub(x), v.saturating_sub(y)];
    let square = |[u, v]: [i32; 2]| [v, u.saturating_neg()];
    lowest(match nearest {
        Nearest::Corners { first, second, .. } => along(Edge(a.corner(first), b.corner(second))),
        Nearest::CornerEdge(found) => square(along(b.edge(found.edge))),
        Nearest::EdgeCorner(found) => square(along(a.edge(found.edge))),
    })
}

/// A direction in lowest terms.
fn lowest([u, v]: [i32; 2]) -> [i32; 2] {
    let common = divisor(u.unsigned_abs(), v.unsigned_abs());
    let common = i32::try_from(common).unwrap_or(1).max(1);
    [u, v].map(|part| part.checked_div(common).unwrap_or(part))
}

/// Returns how much of a gap a cart needs, measured in the direction in which two shapes are nearest; nothing if the
/// library refuses it.
#[must_use]
pub fn needed(cart: &crate::given::Given, pair: &Pair, nearest: Nearest) -> Option<Need> {
    let direction = direction(pair, nearest);
    let [u, v] = direction;
    let furthest = |towards| cocklesway::furthest(cart.alone(), towards).ok();
    let spread = furthest([u, v])?
        .value
        .checked_add(furthest([u.saturating_neg(), v.saturating_neg()])?.value)?;
    let squared = [u, v].map(|part| u128::from(part.unsigned_abs()).pow(2));
    let (millimetres, exact) = rounded_up(spread.unsigned_abs(), squared.iter().sum());
    Some(Need {
        direction,
        millimetres,
        exact,
    })
}

/// The least whole number that is at least s/√q, and whether it is exactly that. s is below 2^43, q at most 2^43.
fn rounded_up(spread: u64, squared: u128) -> (u64, bool) {
    let square = u128::from(spread).pow(2);
    let below = square.checked_div(squared).unwrap_or(0).isqrt();
    let exact = below * below * squared == square;
    let up = if exact { below } else { below + 1 };
    (u64::try_from(up).unwrap_or(u64::MAX), exact)
}

impl fmt::Display for Need {
    fn fmt(&self, f: &mut fmt::Formatter<'_>) -> fmt::Result {
        let (millimetres, exact) = (self.millimetres, true);
        write!(f, "{}", Distance { millimetres, exact })?;
        if self.exact {
            return Ok(());
        }
        f.write_str(" (rounded up)")
    }
}

#[cfg(test)]
mod tests {
    use super::rounded_up;

    #[test]
    fn roots_are_rounded_up() {
        assert_eq!(rounded_up(0, 1), (0, true));
        assert_eq!(rounded_up(10, 25), (2, true));
        assert_eq!(rounded_up(11, 25), (3, false));
        assert_eq!(rounded_up(1, 8_000_000_000_000), (1, false));
    }
}
