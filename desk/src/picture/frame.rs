//! From millimetres of the floor to pixels of the page.

/// A rectangle, in pixels or in millimetres.
#[derive(Clone, Copy, Debug, PartialEq)]
pub struct Rect {
    /// The least x and y.
    pub least: [f64; 2],
    /// The greatest x and y.
    pub greatest: [f64; 2],
}

/// A part of the floor, to scale, on a part of the page. On the floor y grows upwards, on the page downwards.
#[derive(Clone, Copy, Debug, PartialEq)]
pub struct Frame {
    /// The part of the floor, in millimetres.
    pub floor: Rect,
    /// The part of the page, in pixels.
    pub page: Rect,
    /// Pixels to a millimetre.
    pub scale: f64,
}

impl Rect {
    /// Returns a point as a rectangle.
    #[must_use]
    pub fn at(point: [f64; 2]) -> Rect {
        Rect {
            least: point,
            greatest: point,
        }
    }

    /// Returns the least rectangle around points; nothing if there are none.
    pub fn around(points: impl IntoIterator<Item = [f64; 2]>) -> Option<Rect> {
        points.into_iter().map(Rect::at).reduce(Rect::joined)
    }

    /// Returns the least rectangle around two.
    #[must_use]
    pub fn joined(self, other: Rect) -> Rect {
        let [[ax, ay], [bx, by]] = [self.least, other.least];
        let [[cx, cy], [dx, dy]] = [self.greatest, other.greatest];
        Rect {
            least: [ax.min(bx), ay.min(by)],
            greatest: [cx.max(dx), cy.max(dy)],
        }
    }

    /// Returns the rectangle with so much more on each side.
    #[must_use]
    pub fn widened(self, by: f64) -> Rect {
        Rect {
            least: self.least.map(|part| part - by),
            greatest: self.greatest.map(|part| part + by),
        }
    }

    /// Returns how wide it is.
    #[must_use]
    pub fn width(self) -> f64 {
        self.greatest[0] - self.least[0]
    }

    /// Returns how high it is.
    #[must_use]
    pub fn height(self) -> f64 {
        self.greatest[1] - self.least[1]
    }

    /// Returns the area that two rectangles share.
    #[must_use]
    pub fn shared(self, other: Rect) -> f64 {
        let side = |axis: fn([f64; 2]) -> f64| {
            let end = axis(self.greatest).min(axis(other.greatest));
            (end - axis(self.least).max(axis(other.least))).max(0.0)
        };
        side(|[x, _]| x) * side(|[_, y]| y)
    }
}

impl Frame {
    /// Shows a part of the floor as large as fits, with its upper left corner at a place of the page. Even a point
    /// gets some floor around it.
    #[must_use]
    pub fn fitted(shown: Rect, [left, top]: [f64; 2], [width, height]: [f64; 2]) -> Frame {
        let size = shown.width().max(shown.height()).max(100.0);
        let floor = shown.widened(size * 0.04);
        let scale = (width / floor.width()).min(height / floor.height());
        let page = Rect {
            least: [left, top],
            greatest: [left + floor.width() * scale, top + floor.height() * scale],
        };
        Frame { floor, page, scale }
    }

    /// Shows the floor around a place at a scale, on all of a part of the page.
    #[must_use]
    pub fn centred([x, y]: [f64; 2], scale: f64, page: Rect) -> Frame {
        let (half_width, half_height) = (page.width() / scale / 2.0, page.height() / scale / 2.0);
        let floor = Rect {
            least: [x - half_width, y - half_height],
            greatest: [x + half_width, y + half_height],
        };
        Frame { floor, page, scale }
    }

    /// Returns where a place of the floor is on the page.
    #[must_use]
    pub fn at(&self, [x, y]: [f64; 2]) -> [f64; 2] {
        let [left, top] = self.page.least;
        [
            left + (x - self.floor.least[0]) * self.scale,
            top + (self.floor.greatest[1] - y) * self.scale,
        ]
    }

    /// Returns the transformation that draws millimetres, counted from a place, where they are on the page.
    #[must_use]
    pub fn transform(&self, from: [i32; 2]) -> String {
        let [x, y] = self.at(from.map(f64::from));
        format!("translate({x:.3} {y:.3}) scale({0:.9} -{0:.9})", self.scale)
    }

    /// Returns a rectangle of the floor on the page.
    #[must_use]
    pub fn boxed(&self, floor: Rect) -> Rect {
        let ([left, bottom], [right, top]) = (self.at(floor.least), self.at(floor.greatest));
        Rect {
            least: [left, top],
            greatest: [right, bottom],
        }
    }
}
