//! Outlines and lines, written with their exact millimetres.
use super::look;
use super::scene::{Figure, Stroke};
use super::svg::{Attributes, Mm, Svg};
use crate::sentence;

/// Draws the outline of a figure: a polygon, a segment, or a point.
pub fn outline(svg: &mut Svg, class: &str, figure: &Figure, scale: f64, from: [i32; 2]) {
    let look = look::of_role(figure.role);
    let role = format!("{:?}", figure.role).to_lowercase();
    let dashes = scaled(look.dashes, scale);
    let common: &Attributes<'_> = &[
        ("class", &role),
        ("data-name", &figure.label),
        ("stroke", &look.colour),
        ("stroke-dasharray", &dashes),
    ];
    let corners = figure.shape.corners().iter();
    let corners: Vec<[i32; 2]> = corners.map(|&corner| less(corner, from)).collect();
    let points: Vec<String> = corners.iter().map(|[x, y]| format!("{x},{y}")).collect();
    let (points, fill) = (points.join(" "), look.hatch.fill(class));
    let [thick, dot, ring] = [3.0, 2.0, 4.5].map(|pixels| Mm(pixels / scale));
    let (name, own): (&str, &Attributes<'_>) = match corners.as_slice() {
        [[x, y]] => {
            let ring: &Attributes<'_> = &[("cx", x), ("cy", y), ("r", &ring), ("fill", &"none")];
            svg.empty("circle", &[ring, &[("stroke", &look.colour)]].concat());
            (
                "circle",
                &[("cx", x), ("cy", y), ("r", &dot), ("fill", &look.colour)],
            )
        }
        [_, _] => (
            "polyline",
            &[
                ("points", &points),
                ("fill", &"none"),
                ("stroke-width", &thick),
            ],
        ),
        _ => ("polygon", &[("points", &points), ("fill", &fill)]),
    };
    svg.open(name, &[common, own].concat());
    let what = sentence::defined_as(&figure.label, &figure.shape);
    svg.text("title", &[], &what);
    svg.close(name);
}

/// Draws a line.
pub fn line(svg: &mut Svg, stroke: &Stroke, scale: f64, from: [i32; 2]) {
    let look = look::of_line(stroke.kind);
    let class = format!("{:?}", stroke.kind).to_lowercase();
    let [left, bottom] = from.map(f64::from);
    let [[x1, y1], [x2, y2]] = stroke.ends.map(|[x, y]| [Mm(x - left), Mm(y - bottom)]);
    let attributes: &Attributes<'_> = &[
        ("class", &class),
        ("x1", &x1),
        ("y1", &y1),
        ("x2", &x2),
        ("y2", &y2),
        ("stroke", &look.colour),
        ("stroke-width", &Mm(2.0 / scale)),
        ("stroke-dasharray", &scaled(look.dashes, scale)),
    ];
    svg.empty("line", attributes);
}

/// Dashes in millimetres, which are as long on the page whatever the scale.
fn scaled(dashes: &str, scale: f64) -> String {
    let numbers = dashes.split(' ').map(|number| match number.parse::<f64>() {
        Ok(pixels) => Mm(pixels / scale).to_string(),
        Err(_) => number.to_string(),
    });
    let all: Vec<String> = numbers.collect();
    all.join(" ")
}

/// Returns a corner, counted from a place. Both are in range or near it, so that nothing overflows.
#[must_use]
pub fn less([x, y]: [i32; 2], [left, bottom]: [i32; 2]) -> [i32; 2] {
    [x.saturating_sub(left), y.saturating_sub(bottom)]
}
