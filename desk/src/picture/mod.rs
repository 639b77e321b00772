//! A scene laid out and written as SVG.
//!
//! Every outline is written with its exact millimetres, in a group that brings them to scale. So what is drawn can be
//! read back, and held against the library's answers.
//!
//! | module | subject |
//! |---|---|
//! | [`scene`] | what a picture shows |
//! | [`way`] | gaps below a limit, and a drive |
//! | [`gaps`] | gaps that are too narrow to be seen |
//! | [`frame`], [`grid`] | from millimetres to pixels; coordinates |
//! | [`labels`], [`legend`] | where names are written; what is below the map |
//! | [`look`], [`mod@outline`], [`svg`] | colours and hatchings; outlines; elements |
pub mod frame;
pub mod gaps;
pub mod grid;
pub mod labels;
pub mod legend;
pub mod look;
pub mod outline;
pub mod scene;
pub mod svg;
pub mod way;

use crate::answer::Refused;
use frame::{Frame, Rect};
use gaps::Narrow;
use labels::{LINE, Label, Wanted};
use legend::Legend;
use look::ROLES;
use outline::{less, line, outline};
use scene::{Figure, Role, Scene, Tag};
use svg::{Attributes, Mm, Px, Svg};

/// The width of the page, and what is left free beside the map.
const WIDTH: f64 = 1000.0;
const LEFT: f64 = 56.0;
const TOP: f64 = 44.0;
const MAP: [f64; 2] = [WIDTH - LEFT - 24.0, 640.0];

/// The most gaps that are drawn larger: the narrowest ones. All others are named.
const MOST_INSETS: usize = 6;
const INSETS_IN_ROW: usize = 3;
const INSET: [f64; 2] = [288.0, 190.0];

/// How wide a gap is in its inset, in pixels. One of a hundredth of a millimetre and less is narrower.
const GAP_IN_INSET: f64 = 40.0;
const LEAST_GAP: f64 = 0.01;

/// Returns the picture of a scene; nothing if there is nothing to draw.
///
/// # Errors
/// A question on two figures that the library refuses.
pub fn picture(scene: &Scene) -> Result<Option<String>, Refused> {
    let figures = scene.figures.iter().filter_map(Figure::around);
    let strokes = scene
        .strokes
        .iter()
        .filter_map(|stroke| Rect::around(stroke.ends));
    let Some(around) = figures.chain(strokes).reduce(Rect::joined) else {
        return Ok(None);
    };
    let place = Rect::around(scene.place.map(|place| place.map(f64::from)));
    let shown = place.map_or(around, |place| around.joined(place));
    let frame = Frame::fitted(shown, [LEFT, TOP], MAP);
    let narrow = gaps::narrow(scene, &frame)?;
    let page = Page {
        scene,
        frame,
        narrow,
    };
    Ok(Some(page.drawn()))
}

/// A picture that is being written.
struct Page<'a> {
    scene: &'a Scene,
    frame: Frame,
    narrow: Vec<Narrow>,
}

impl Page<'_> {
    fn drawn(&self) -> String {
        let mut svg = Svg::default();
        let hidden = self.narrow.iter().skip(MOST_INSETS);
        let legend = Legend::new(self.scene, hidden, [LEFT, self.legend_top()], MAP[0]);
        let (floor, height) = (self.scene.floor, Px(legend.bottom()));
        let root: &Attributes<'_> = &[
            ("xmlns", &"http://www.w3.org/2000/svg"),
            ("viewBox", &format!("0 0 {} {height}", Px(WIDTH))),
            ("width", &Px(WIDTH)),
            ("height", &height),
            ("font-family", &"sans-serif"),
            ("font-size", &13),
            ("role", &"img"),
        ];
        let paper: &Attributes<'_> = &[("width", &"100%"), ("height", &"100%"), ("fill", &"#fff")];
        let title: &Attributes<'_> = &[("x", &Px(LEFT)), ("y", &26), ("font-size", &18)];
        svg.open("svg", root);
        svg.text("title", &[], &format!("Floor {floor}"));
        svg.empty("rect", paper);
        svg.text("text", title, &format!("Floor {floor}"));
        grid::draw(&mut svg, &self.frame);
        self.map(&mut svg, "map", &self.frame, [0, 0]);
        self.marks(&mut svg);
        self.names(&mut svg);
        self.insets(&mut svg);
        legend.draw(&mut svg);
        svg.close("svg");
        svg.finish()
    }

    /// Draws all outlines and lines with their millimetres, to the scale of a frame. They are counted from a place near
    /// by, since browsers round what is far away.
    fn map(&self, svg: &mut Svg, class: &str, frame: &Frame, from: [i32; 2]) {
        svg.open("defs", &[]);
        for role in ROLES.into_iter().filter(|&role| self.scene.has(role)) {
            look::define(svg, class, &look::of_role(role), frame.scale);
        }
        svg.close("defs");
        let [left, bottom] = from;
        let group: &Attributes<'_> = &[
            ("class", &class),
            ("data-from", &format!("{left},{bottom}")),
            ("transform", &frame.transform(from)),
            ("stroke-width", &Mm(1.6 / frame.scale)),
            ("stroke-linejoin", &"round"),
            ("stroke-linecap", &"round"),
        ];
        svg.open("g", group);
        for figure in &self.scene.figures {
            outline(svg, class, figure, frame.scale, from);
        }
        for stroke in &self.scene.strokes {
            line(svg, stroke, frame.scale, from);
        }
        self.origin(svg, frame.scale, from);
        svg.close("g");
    }

    /// Draws the ring at the cart's origin.
    fn origin(&self, svg: &mut Svg, scale: f64, from: [i32; 2]) {
        let Some(place) = self.scene.place else {
            return;
        };
        let [x, y] = less(place, from);
        let [radius, width] = [5.0, 2.0].map(|size| Mm(size / scale));
        let ring: &Attributes<'_> = &[
            ("class", &"origin"),
            ("cx", &x),
            ("cy", &y),
            ("r", &radius),
            ("fill", &"#fff"),
            ("stroke", &look::of_role(Role::Cart).colour),
            ("stroke-width", &width),
        ];
        svg.empty("circle", ring);
    }

    /// The gaps that are drawn larger, with their letters.
    fn lettered(&self) -> impl Iterator<Item = (char, &Narrow)> {
        ('A'..).zip(self.narrow.iter().take(MOST_INSETS))
    }

    /// Marks the places of the insets.
    fn marks(&self, svg: &mut Svg) {
        for (letter, gap) in self.lettered() {
            let [x, y] = self.frame.at(gap.stroke.middle());
            let mark: &Attributes<'_> = &[
                ("x", &Px(x - 8.0)),
                ("y", &Px(y - 8.0)),
                ("width", &16),
                ("height", &16),
                ("fill", &"none"),
                ("stroke", &look::OF_GAPS),
                ("stroke-width", &1.5),
            ];
            svg.empty("rect", mark);
            let (x, y) = (Px(x + 11.0), Px(y - 5.0));
            let place: &Attributes<'_> = &[("x", &x), ("y", &y), ("fill", &look::OF_GAPS)];
            svg.text("text", place, &letter.to_string());
        }
    }

    /// Writes the names beside the shapes.
    fn names(&self, svg: &mut Svg) {
        let figures = self.scene.figures.iter();
        let named = figures.filter(|figure| figure.role != Role::Zone);
        let tags = self.scene.tags.iter().map(|tag| self.tagged(tag));
        let wanted: Vec<Wanted> = named
            .filter_map(|figure| self.wanted(figure))
            .chain(tags)
            .collect();
        let group: &Attributes<'_> = &[
            ("class", &"names"),
            ("text-anchor", &"middle"),
            ("paint-order", &"stroke"),
            ("stroke", &"#fff"),
            ("stroke-width", &3.5),
            ("stroke-linejoin", &"round"),
        ];
        svg.open("g", group);
        let page = self.frame.page.widened(8.0);
        for Label { text, at: [x, y] } in labels::placed(&wanted, &self.marked(), page) {
            svg.text("text", &[("x", &Px(x)), ("y", &Px(y))], &text);
        }
        svg.close("g");
    }

    fn wanted(&self, figure: &Figure) -> Option<Wanted> {
        Some(Wanted {
            text: figure.label.clone(),
            middle: self.frame.at(figure.mean()?),
            around: self.frame.boxed(figure.around()?).widened(2.0),
        })
    }

    /// The word of a line, beside its middle.
    fn tagged(&self, tag: &Tag) -> Wanted {
        let middle = self.frame.at(tag.at);
        Wanted {
            text: tag.text.clone(),
            middle,
            around: Rect::at(middle).widened(2.0),
        }
    }

    /// What names must not cover: the cart's origin, and the marks of insets with their letters.
    fn marked(&self) -> Vec<Rect> {
        let around = |at: [f64; 2], by| {
            let at = self.frame.at(at);
            Rect::at(at).widened(by)
        };
        let origin = self
            .scene
            .place
            .map(|place| around(place.map(f64::from), 7.0));
        let gaps = self
            .lettered()
            .map(|(_, gap)| around(gap.stroke.middle(), 18.0));
        origin.into_iter().chain(gaps).collect()
    }

    /// Draws narrow gaps larger, in rows below the map.
    fn insets(&self, svg: &mut Svg) {
        let [width, height] = INSET;
        let columns = [0.0, 1.0, 2.0].map(|column| LEFT + column * (width + 20.0));
        let mut places = (0_u32..).flat_map(|row| columns.map(|x| [x, self.inset_top(row)]));
        for (letter, gap) in self.lettered() {
            let [x, y] = places.next().unwrap_or_default();
            let page = Rect {
                least: [x, y],
                greatest: [x + width, y + height],
            };
            self.inset(svg, letter, gap, page);
        }
    }

    /// Where a row of insets begins.
    fn inset_top(&self, row: u32) -> f64 {
        let [_, height] = INSET;
        let [_, bottom] = self.frame.page.greatest;
        bottom + 36.0 + 2.0 * LINE + f64::from(row) * (height + 3.0 * LINE)
    }

    fn inset(&self, svg: &mut Svg, letter: char, gap: &Narrow, page: Rect) {
        let scale = GAP_IN_INSET / gap.stroke.length().max(LEAST_GAP);
        let frame = Frame::centred(gap.stroke.middle(), scale, page);
        let from = whole(gap.stroke.middle());
        let [x, y] = page.least;
        let sides: &Attributes<'_> = &[
            ("x", &Px(x)),
            ("y", &Px(y)),
            ("width", &Px(page.width())),
            ("height", &Px(page.height())),
        ];
        let rim: &Attributes<'_> = &[("fill", &"none"), ("stroke", &look::OF_GAPS)];
        let clip = format!("clip-{letter}");
        svg.open("clipPath", &[("id", &clip)]);
        svg.empty("rect", sides);
        svg.close("clipPath");
        svg.open("g", &[("clip-path", &format!("url(#{clip})"))]);
        svg.text("title", &[], &gap.title);
        self.map(svg, &format!("inset-{letter}"), &frame, from);
        svg.open("g", &[("transform", &frame.transform(from))]);
        line(svg, &gap.stroke, frame.scale, from);
        svg.close("g");
        svg.close("g");
        svg.empty("rect", &[sides, rim].concat());
        let lines = labels::wrapped(&format!("{letter}: {}", gap.title), page.width());
        for (text, y) in lines.iter().zip([y - 5.0 - LINE, y - 5.0]) {
            let place: &Attributes<'_> = &[("x", &Px(x)), ("y", &Px(y))];
            svg.text("text", place, &labels::fitted(text, page.width()));
        }
    }

    /// Where the legend begins: below all rows of insets.
    fn legend_top(&self) -> f64 {
        let insets = self.narrow.len().min(MOST_INSETS);
        let rows = insets.div_ceil(INSETS_IN_ROW).try_into().unwrap_or(0);
        self.inset_top(rows)
    }
}

/// The whole millimetres next to a place that is in range.
#[allow(clippy::cast_possible_truncation)]
fn whole(place: [f64; 2]) -> [i32; 2] {
    place.map(|part| part.round() as i32)
}
