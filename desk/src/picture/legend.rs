//! What is below the map: what the colours mean, and sentences.
use super::gaps::Narrow;
use super::labels::{self, LINE};
use super::look::{self, Hatch, KINDS, Look, ROLES};
use super::scene::{LineKind, Scene};
use super::svg::{Attributes, Px, Svg};

/// The height of a row.
const ROW: f64 = LINE * 1.3;

/// How wide the sample of a colour is, and where the text after it begins.
const SAMPLE: f64 = 26.0;
const TEXT: f64 = 36.0;

/// The legend of a scene, on a page.
#[derive(Clone, Debug, PartialEq)]
pub struct Legend {
    figures: Vec<Look>,
    lines: Vec<Look>,
    said: Vec<String>,
    at: [f64; 2],
}

impl Legend {
    /// Makes the legend of a scene and of the gaps that have no inset, with its upper left corner at a place, so wide.
    pub fn new<'a>(
        scene: &Scene,
        hidden: impl Iterator<Item = &'a Narrow>,
        at: [f64; 2],
        width: f64,
    ) -> Legend {
        let roles = ROLES.into_iter().filter(|&role| scene.has(role));
        let kinds = KINDS.into_iter();
        let drawn = |kind: &LineKind| scene.strokes.iter().any(|stroke| stroke.kind == *kind);
        let hidden = hidden.map(|gap| format!("too narrow to be seen: {}", gap.title));
        let notes = scene.notes.iter().cloned().chain(hidden);
        Legend {
            figures: roles.map(look::of_role).collect(),
            lines: kinds.filter(drawn).map(look::of_line).collect(),
            said: notes
                .flat_map(|note| labels::wrapped(&note, width))
                .collect(),
            at,
        }
    }

    /// Returns where the page may end.
    #[must_use]
    pub fn bottom(&self) -> f64 {
        let rows = self.figures.len() + self.lines.len() + self.said.len();
        let [_, top] = self.at;
        top + ROW * f64::from(u32::try_from(rows).unwrap_or(0)) + LINE
    }

    /// Draws it.
    pub fn draw(&self, svg: &mut Svg) {
        let [left, top] = self.at;
        let mut y = top + 10.0;
        svg.open("g", &[("class", &"legend")]);
        for look in &self.figures {
            sample(svg, look, [left, y]);
            explained(svg, look, [left, y]);
            y += ROW;
        }
        for look in &self.lines {
            stroke(
                svg,
                look,
                [left, y - 4.0],
                [left + SAMPLE, y - 4.0],
                look.dashes,
            );
            explained(svg, look, [left, y]);
            y += ROW;
        }
        for said in &self.said {
            svg.text("text", &[("x", &Px(left)), ("y", &Px(y))], said);
            y += ROW;
        }
        svg.close("g");
    }
}

/// Writes what a look means.
fn explained(svg: &mut Svg, look: &Look, [left, y]: [f64; 2]) {
    let place: &Attributes<'_> = &[("x", &Px(left + TEXT)), ("y", &Px(y))];
    svg.text("text", place, look.legend);
}

/// Draws the colour and the hatching of figures. The patterns of the map are sized in millimetres, so some of their
/// lines are drawn one by one.
fn sample(svg: &mut Svg, look: &Look, [left, y]: [f64; 2]) {
    let area: &Attributes<'_> = &[
        ("x", &Px(left)),
        ("y", &Px(y - 11.0)),
        ("width", &Px(SAMPLE)),
        ("height", &14),
        ("fill", &look.colour),
        (
            "fill-opacity",
            &if look.hatch == Hatch::Bare { 0.0 } else { 0.12 },
        ),
        ("stroke", &look.colour),
        ("stroke-width", &1.6),
        ("stroke-dasharray", &look.dashes),
    ];
    svg.empty("rect", area);
    for x in [left + 4.0, left + 11.0, left + 18.0] {
        let (bottom, top) = (y + 1.0, y - 9.0);
        match look.hatch {
            Hatch::Bare => {}
            Hatch::Rising => stroke(svg, look, [x, bottom], [x + 6.0, top], "none"),
            Hatch::Falling => stroke(svg, look, [x + 6.0, bottom], [x, top], "none"),
            Hatch::Upright => stroke(svg, look, [x + 3.0, bottom], [x + 3.0, top], "none"),
            Hatch::Dots => stroke(svg, look, [x + 3.0, bottom], [x + 3.0, top], "1.5 4"),
        }
    }
}

fn stroke(svg: &mut Svg, look: &Look, [x1, y1]: [f64; 2], [x2, y2]: [f64; 2], dashes: &str) {
    let line: &Attributes<'_> = &[
        ("x1", &Px(x1)),
        ("y1", &Px(y1)),
        ("x2", &Px(x2)),
        ("y2", &Px(y2)),
        ("stroke", &look.colour),
        ("stroke-width", &1.4),
        ("stroke-dasharray", &dashes),
    ];
    svg.empty("line", line);
}
