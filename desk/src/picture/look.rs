//! How figures and lines look: colours that colour-blind people can tell apart (Okabe and Ito), each with a hatching of
//! its own, so that a print in black and white can be read.
use super::scene::{LineKind, Role};
use super::svg::{Attributes, Mm, Svg};

/// A hatching.
#[derive(Clone, Copy, Debug, PartialEq, Eq)]
pub enum Hatch {
    /// None.
    Bare,
    /// Lines that rise to the right.
    Rising,
    /// Lines that fall to the right.
    Falling,
    /// Upright lines.
    Upright,
    /// Dots.
    Dots,
}

/// How a figure is drawn.
#[derive(Clone, Copy, Debug, PartialEq, Eq)]
pub struct Look {
    /// Its colour.
    pub colour: &'static str,
    /// Its hatching.
    pub hatch: Hatch,
    /// The dashes of its rim, in pixels.
    pub dashes: &'static str,
    /// What the legend says.
    pub legend: &'static str,
}

/// All roles, in the order of the legend.
pub const ROLES: [Role; 6] = [
    Role::Shape,
    Role::Answer,
    Role::Cart,
    Role::Zone,
    Role::Sum,
    Role::Way,
];

/// All kinds of lines, in the order of the legend.
pub const KINDS: [LineKind; 4] = [
    LineKind::Gap,
    LineKind::Tangent,
    LineKind::Way,
    LineKind::Contact,
];

/// The colour of gaps and of the insets that show them.
pub const OF_GAPS: &str = "#cc0066";

/// Returns how a figure is drawn.
#[must_use]
pub const fn of_role(role: Role) -> Look {
    let (colour, hatch, dashes, legend) = match role {
        Role::Shape => ("#0072b2", Hatch::Rising, "none", "shapes of the map"),
        Role::Answer => ("#000000", Hatch::Bare, "9 3", "answers that were asked for"),
        Role::Cart => (
            "#009e73",
            Hatch::Upright,
            "none",
            "the cart; the ring is its origin",
        ),
        Role::Zone => (
            "#d55e00",
            Hatch::Dots,
            "7 4",
            "where the cart's origin must not be: obstacles grown by its outline",
        ),
        Role::Sum => ("#7b3294", Hatch::Falling, "10 3 2 3", "vector sum"),
        Role::Way => (
            "#009e73",
            Hatch::Bare,
            "4 3",
            "what the cart passes over on a leg that is clear, or the cart where it begins another",
        ),
    };
    Look {
        colour,
        hatch,
        dashes,
        legend,
    }
}

/// Returns how a line is drawn.
#[must_use]
pub const fn of_line(kind: LineKind) -> Look {
    let (colour, dashes, legend) = match kind {
        LineKind::Gap => (OF_GAPS, "none", "between the nearest points"),
        LineKind::Tangent => ("#555555", "2 3", "lines that just touch both"),
        LineKind::Way => ("#009e73", "none", "the way of the cart's origin"),
        LineKind::Contact => (
            "#e69f00",
            "none",
            "the cart where it first meets an obstacle",
        ),
    };
    Look {
        colour,
        hatch: Hatch::Bare,
        dashes,
        legend,
    }
}

impl Hatch {
    /// Its name, and the angle of its lines.
    fn lines(self) -> Option<(&'static str, i32)> {
        match self {
            Hatch::Bare => None,
            Hatch::Rising => Some(("rising", -45)),
            Hatch::Falling => Some(("falling", 45)),
            Hatch::Upright => Some(("upright", 0)),
            Hatch::Dots => Some(("dots", 45)),
        }
    }

    /// Returns the paint of an area of a map of that class.
    #[must_use]
    pub fn fill(self, class: &str) -> String {
        match self.lines() {
            Some((name, _)) => format!("url(#{name}-{class})"),
            None => "none".to_string(),
        }
    }
}

/// Defines the hatching of a look for a map of that class. Its size is in millimetres, as that of the outlines, and the
/// same on the page whatever the scale.
pub fn define(svg: &mut Svg, class: &str, look: &Look, scale: f64) {
    let Some((name, angle)) = look.hatch.lines() else {
        return;
    };
    let [size, half, thin] = [8.0, 4.0, 1.0].map(|pixels| Mm(pixels / scale));
    let pattern: &Attributes<'_> = &[
        ("id", &format!("{name}-{class}")),
        ("width", &size),
        ("height", &size),
        ("patternUnits", &"userSpaceOnUse"),
        ("patternTransform", &format!("rotate({angle})")),
    ];
    let ground: &Attributes<'_> = &[
        ("width", &size),
        ("height", &size),
        ("fill", &look.colour),
        ("fill-opacity", &0.1),
    ];
    svg.open("pattern", pattern);
    svg.empty("rect", ground);
    motif(svg, look, [size, half, thin]);
    svg.close("pattern");
}

/// Draws what a hatching repeats: a dot or a line.
fn motif(svg: &mut Svg, look: &Look, [size, half, thin]: [Mm; 3]) {
    if look.hatch == Hatch::Dots {
        let dot: &Attributes<'_> = &[
            ("cx", &half),
            ("cy", &half),
            ("r", &thin),
            ("fill", &look.colour),
        ];
        svg.empty("circle", dot);
    } else {
        let line: &Attributes<'_> = &[
            ("x1", &half),
            ("y1", &0),
            ("x2", &half),
            ("y2", &size),
            ("stroke", &look.colour),
            ("stroke-width", &thin),
        ];
        svg.empty("line", line);
    }
}
