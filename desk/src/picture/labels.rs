//! Where names are written: inside their shapes, or beside them where they cover least.
use super::frame::Rect;

/// The height of a line of text, in pixels.
pub const LINE: f64 = 16.0;

/// What one line of text further away costs, in square pixels of a shape that are covered.
const FAR: f64 = 120.0;

/// A label, and what it belongs to, on the page.
#[derive(Clone, Debug, PartialEq)]
pub struct Label {
    /// What is written.
    pub text: String,
    /// Where, by the middle of its base line.
    pub at: [f64; 2],
}

/// A name that is to be written.
#[derive(Clone, Debug, PartialEq)]
pub struct Wanted {
    /// The text.
    pub text: String,
    /// A place inside of the shape.
    pub middle: [f64; 2],
    /// The box around the shape.
    pub around: Rect,
}

/// Places labels on a page, one after the other, each where it covers least: of the marks, of other labels, and then
/// of other shapes.
#[must_use]
pub fn placed(wanted: &[Wanted], marks: &[Rect], page: Rect) -> Vec<Label> {
    let mut taken: Vec<Rect> = marks.to_vec();
    let mut labels = Vec::new();
    for (number, one) in wanted.iter().enumerate() {
        let others = wanted
            .iter()
            .enumerate()
            .filter(|(other, _)| *other != number);
        let shapes: Vec<Rect> = others.map(|(_, other)| other.around).collect();
        let cost = |own: Rect| {
            let outside = own.width() * own.height() - own.shared(page);
            let on_labels: f64 = taken.iter().map(|&other| own.shared(other)).sum();
            let on_shapes: f64 = shapes.iter().map(|&other| own.shared(other)).sum();
            100.0 * (outside + on_labels) + on_shapes
        };
        let places = candidates(one).into_iter();
        let costs = places.map(|(own, at)| (own + cost(extent(&one.text, at)), at));
        let best = costs.min_by(|(a, _), (b, _)| a.total_cmp(b));
        let at = best.map_or(one.middle, |(_, at)| at);
        taken.push(extent(&one.text, at));
        labels.push(Label {
            text: one.text.clone(),
            at,
        });
    }
    labels
}

/// The places at which a label may be, with what each costs by itself: the nearer the better.
fn candidates(wanted: &Wanted) -> Vec<(f64, [f64; 2])> {
    let Rect {
        least: [left, top],
        greatest: [right, bottom],
    } = wanted.around;
    let [x, y] = wanted.middle;
    let (half, base) = (width(&wanted.text) / 2.0, LINE / 3.0);
    let mut all = Vec::new();
    if wanted.around.width() > 2.0 * half + 8.0 && wanted.around.height() > LINE + 4.0 {
        all.push((0.0, [x, y + base]));
    }
    for step in [0.0, 1.0, 2.0, 3.0] {
        let (aside, away) = (half + 6.0 + step * LINE, 5.0 + step * LINE);
        let below = bottom + away + 2.0 * base;
        let round = [
            [right + aside, y + base],
            [x, top - away],
            [x, below],
            [left - aside, y + base],
            [right + aside, top - away],
            [right + aside, below],
            [left - aside, top - away],
            [left - aside, below],
        ];
        let costs = (1_u8..).map(|rank| f64::from(rank) + step * FAR);
        all.extend(costs.zip(round));
    }
    all
}

/// The box around a text, by the middle of its base line.
fn extent(text: &str, [x, y]: [f64; 2]) -> Rect {
    let half = width(text) / 2.0;
    Rect {
        least: [x - half, y - LINE * 0.8],
        greatest: [x + half, y + LINE * 0.25],
    }
}

/// Returns about how wide a text is, in pixels. Signs of other scripts than ours may be twice as wide.
#[must_use]
pub fn width(text: &str) -> f64 {
    let wide = |c: char| if u32::from(c) > 0x2E80 { 14.0 } else { 7.1 };
    text.chars().map(wide).sum()
}

/// Returns a text in lines of words that fit a width.
#[must_use]
pub fn wrapped(text: &str, most: f64) -> Vec<String> {
    let mut lines = vec![String::new()];
    for word in text.split(' ') {
        match lines.last_mut() {
            Some(line) if line.is_empty() => line.push_str(word),
            Some(line) if width(line) + width(" ") + width(word) <= most => {
                line.push(' ');
                line.push_str(word);
            }
            _ => lines.push(word.to_string()),
        }
    }
    lines
}

/// Returns a text, or as much of its beginning as fits a width.
#[must_use]
pub fn fitted(text: &str, most: f64) -> String {
    if width(text) <= most {
        return text.to_string();
    }
    let mut short = String::new();
    for c in text.chars() {
        if width(&short) + 30.0 > most {
            break;
        }
        short.push(c);
    }
    short + ".."
}
