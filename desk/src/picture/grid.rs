//! The light grid, with its coordinates in metres.
use super::frame::Frame;
use super::svg::{Attributes, Px, Svg};

/// The least distance of two lines of the grid, in pixels.
const LEAST: f64 = 55.0;

/// Draws the grid of a frame, and the coordinates at its left and lower sides.
pub fn draw(svg: &mut Svg, frame: &Frame) {
    let step = step(frame.scale);
    svg.open(
        "g",
        &[
            ("class", &"grid"),
            ("stroke", &"#ddd"),
            ("stroke-width", &1),
        ],
    );
    let ([left, top], [right, bottom]) = (frame.page.least, frame.page.greatest);
    for x in multiples(step, frame.floor.least[0], frame.floor.greatest[0]) {
        let [at, _] = frame.at([x, 0.0]);
        line(svg, [at, top], [at, bottom]);
    }
    for y in multiples(step, frame.floor.least[1], frame.floor.greatest[1]) {
        let [_, at] = frame.at([0.0, y]);
        line(svg, [left, at], [right, at]);
    }
    svg.close("g");
    coordinates(svg, frame, step);
}

fn line(svg: &mut Svg, [x1, y1]: [f64; 2], [x2, y2]: [f64; 2]) {
    let line: &Attributes<'_> = &[
        ("x1", &Px(x1)),
        ("y1", &Px(y1)),
        ("x2", &Px(x2)),
        ("y2", &Px(y2)),
    ];
    svg.empty("line", line);
}

fn coordinates(svg: &mut Svg, frame: &Frame, step: f64) {
    let ([left, _], [right, bottom]) = (frame.page.least, frame.page.greatest);
    svg.open(
        "g",
        &[
            ("class", &"coordinates"),
            ("fill", &"#666"),
            ("font-size", &11),
        ],
    );
    for x in multiples(step, frame.floor.least[0], frame.floor.greatest[0]) {
        let [at, _] = frame.at([x, 0.0]);
        let place: &Attributes<'_> = &[
            ("x", &Px(at)),
            ("y", &Px(bottom + 14.0)),
            ("text-anchor", &"middle"),
        ];
        svg.text("text", place, &metres(x));
    }
    for y in multiples(step, frame.floor.least[1], frame.floor.greatest[1]) {
        let [_, at] = frame.at([0.0, y]);
        let place: &Attributes<'_> = &[
            ("x", &Px(left - 6.0)),
            ("y", &Px(at + 4.0)),
            ("text-anchor", &"end"),
        ];
        svg.text("text", place, &metres(y));
    }
    let place: &Attributes<'_> = &[
        ("x", &Px(right)),
        ("y", &Px(bottom + 29.0)),
        ("text-anchor", &"end"),
    ];
    svg.text("text", place, "metres");
    svg.close("g");
}

/// The least of 1, 2, 5, 10, 20 .. millimetres that keeps the lines apart.
fn step(scale: f64) -> f64 {
    let mut power = 1.0;
    for _ in 0..9 {
        for digit in [1.0, 2.0, 5.0] {
            if digit * power * scale >= LEAST {
                return digit * power;
            }
        }
        power *= 10.0;
    }
    power
}

/// The multiples of a step from one number to another.
fn multiples(step: f64, from: f64, to: f64) -> impl Iterator<Item = f64> {
    let first = (from / step).ceil();
    let mut count = 0.0;
    std::iter::from_fn(move || {
        let next = (first + count) * step;
        count += 1.0;
        (next <= to).then_some(next)
    })
}

/// Whole millimetres as metres, with the decimals that they need.
fn metres(millimetres: f64) -> String {
    let text = format!("{:.3}", millimetres / 1000.0);
    let short = text.trim_end_matches('0').trim_end_matches('.');
    if short == "-0" {
        "0".to_string()
    } else {
        short.to_string()
    }
}
