//! What a picture shows: figures, lines between them, and what is said below.
use super::frame::Rect;
use crate::answer::{Refused, clearance, made, tangents};
use crate::called::{Called, between};
use crate::floor::stand::{Stand, label_at, placed, stand};
use crate::floor::{Floor, grown, is_thing};
use crate::given::{Given, Pair};
use crate::map::{Map, Origin};
use crate::question::Making;
use crate::sentence;
use cocklesway::{Clearance, Nearest, Relation, Tangents};

/// What a figure is.
#[derive(Clone, Copy, Debug, PartialEq, Eq)]
pub enum Role {
    /// A shape of the map.
    Shape,
    /// A named answer that was asked for.
    Answer,
    /// The cart at its place.
    Cart,
    /// The places at which the cart meets an obstacle.
    Zone,
    /// A vector sum.
    Sum,
    /// What the cart passes over on a drive, or the cart where it begins it.
    Way,
}

/// A shape that is drawn.
#[derive(Clone, Debug, PartialEq, Eq)]
pub struct Figure {
    /// What it is.
    pub role: Role,
    /// What is written beside it.
    pub label: String,
    /// The shape, as the library accepted or answered it.
    pub shape: Given,
}

/// What a line is.
#[derive(Clone, Copy, Debug, PartialEq, Eq)]
pub enum LineKind {
    /// Between the nearest points of two shapes.
    Gap,
    /// One that just touches both.
    Tangent,
    /// The way of the cart's origin.
    Way,
    /// An edge of the cart where it first meets an obstacle.
    Contact,
}

/// A line that is drawn, in millimetres.
#[derive(Clone, Copy, Debug, PartialEq)]
pub struct Stroke {
    /// What it is.
    pub kind: LineKind,
    /// From where to where.
    pub ends: [[f64; 2]; 2],
}

/// A word that is written at a place, in millimetres.
#[derive(Clone, Debug, PartialEq)]
pub struct Tag {
    /// The word.
    pub text: String,
    /// The place.
    pub at: [f64; 2],
}

/// A picture before it is laid out.
#[derive(Clone, Debug, Default, PartialEq)]
pub struct Scene {
    /// The floor.
    pub floor: u16,
    /// The figures, the lower ones first.
    pub figures: Vec<Figure>,
    /// The lines.
    pub strokes: Vec<Stroke>,
    /// Words at lines.
    pub tags: Vec<Tag>,
    /// Where the cart's origin is.
    pub place: Option<[i32; 2]>,
    /// Sentences below the picture.
    pub notes: Vec<String>,
}

/// What is wished for besides the shapes of the floor.
#[derive(Clone, Debug, Default, PartialEq, Eq)]
pub struct Wishes {
    /// Sentences to be written below the picture.
    pub notes: Vec<String>,
    /// Named answers to be drawn.
    pub also: Vec<Given>,
    /// The cart whose obstacles are grown.
    pub cart: Option<Given>,
    /// Where its origin is.
    pub at: Option<[i32; 2]>,
    /// Pairs whose gap is drawn.
    pub gaps: Vec<Pair>,
    /// Pairs whose tangents are drawn.
    pub tangents: Vec<Pair>,
    /// Pairs whose sum is drawn.
    pub sums: Vec<Pair>,
    /// Gaps below this number of millimetres are marked.
    pub below: Option<u64>,
    /// The cart that drives, and for which gaps are measured.
    pub driven: Option<Given>,
    /// The places of a drive.
    pub drive: Vec<[i32; 2]>,
}

impl Figure {
    /// Returns the least rectangle around it; nothing if it has no corner.
    #[must_use]
    pub fn around(&self) -> Option<Rect> {
        Rect::around(self.shape.corners().iter().map(|&corner| float(corner)))
    }

    /// Returns the mean of its corners, which is inside of a convex shape; nothing if it has no corner.
    #[must_use]
    pub fn mean(&self) -> Option<[f64; 2]> {
        let corners = self.shape.corners();
        let count = u32::try_from(corners.len())
            .ok()
            .filter(|&count| count > 0)?;
        let mean = |part: fn(&[i32; 2]) -> i32| {
            let parts = corners.iter().map(|corner| f64::from(part(corner)));
            parts.sum::<f64>() / f64::from(count)
        };
        Some([mean(|[x, _]| *x), mean(|[_, y]| *y)])
    }
}

impl Stroke {
    /// Returns how long it is, in millimetres.
    #[must_use]
    pub fn length(&self) -> f64 {
        let [[ax, ay], [bx, by]] = self.ends;
        (bx - ax).hypot(by - ay)
    }

    /// Returns its middle.
    #[must_use]
    pub fn middle(&self) -> [f64; 2] {
        let [[ax, ay], [bx, by]] = self.ends;
        [f64::midpoint(ax, bx), f64::midpoint(ay, by)]
    }
}

/// Returns all that a picture of a floor shows.
///
/// # Errors
/// A wish that the library refuses.
pub fn scene(map: &Map, floor: u16, wishes: &Wishes) -> Result<Scene, Refused> {
    let here = |shape: &Given| shape.floor == Some(floor);
    let things: Vec<(&Given, &Origin)> = map
        .shapes()
        .filter(|(shape, origin)| here(shape) && is_thing(origin))
        .collect();
    let mut scene = Scene {
        floor,
        notes: wishes.notes.clone(),
        ..Scene::default()
    };
    if let Some(cart) = &wishes.cart {
        let obstacles = Floor::of(map, floor, Some(cart))?;
        scene.add_zones(&obstacles, cart)?;
        scene.add_things(&things, Some(cart));
        scene.add_cart(&obstacles, cart, wishes.at)?;
    } else {
        scene.add_things(&things, None);
    }
    scene.add_wishes(wishes)?;
    if !things.is_empty() {
        scene.add_floor(map, wishes)?;
    }
    Ok(scene)
}

impl Scene {
    /// Returns whether a figure of this role is shown.
    #[must_use]
    pub fn has(&self, role: Role) -> bool {
        self.figures.iter().any(|figure| figure.role == role)
    }

    /// Adds a figure above all others.
    pub fn add(&mut self, role: Role, label: String, shape: Given) {
        self.figures.push(Figure { role, label, shape });
    }

    /// Adds the shapes of the floor, without a cart that is itself one.
    fn add_things(&mut self, things: &[(&Given, &Origin)], cart: Option<&Given>) {
        let is_itself = |shape: &Given| cart.is_some_and(|cart| shape.name == cart.name);
        for (shape, _) in things.iter().filter(|(shape, _)| !is_itself(shape)) {
            self.add(Role::Shape, shape.to_string(), (*shape).clone());
        }
    }

    /// Adds each obstacle, grown by the cart's outline.
    fn add_zones(&mut self, floor: &Floor, cart: &Given) -> Result<(), Refused> {
        for obstacle in &floor.shapes {
            let label = format!("{obstacle} grown by {cart}");
            self.add(Role::Zone, label, grown(obstacle, cart)?);
        }
        Ok(())
    }

    /// Adds the cart at its place, and what it meets there.
    fn add_cart(
        &mut self,
        floor: &Floor,
        cart: &Given,
        at: Option<[i32; 2]>,
    ) -> Result<(), Refused> {
        let Some(place) = at else {
            return Ok(());
        };
        let label = label_at(cart, place);
        let there = if floor.shapes.is_empty() {
            self.notes.push(format!("{label} is free"));
            placed(floor, cart, place)?
        } else {
            let found = stand(floor, cart, place)?;
            self.notes.push(met(floor, &found));
            found.there
        };
        self.add(Role::Cart, label, there);
        self.place = at;
        Ok(())
    }

    /// Adds what is asked of all obstacles at once.
    fn add_floor(&mut self, map: &Map, wishes: &Wishes) -> Result<(), Refused> {
        let cart = wishes.driven.as_ref();
        let floor = Floor::of(map, self.floor, cart.or(wishes.cart.as_ref()))?;
        if let Some(limit) = wishes.below {
            self.add_gaps(&floor, cart, limit)?;
        }
        match cart.or(wishes.cart.as_ref()) {
            Some(cart) => self.add_drive(&floor, cart, &wishes.drive),
            None => Ok(()),
        }
    }

    fn add_wishes(&mut self, wishes: &Wishes) -> Result<(), Refused> {
        for shape in &wishes.also {
            self.add(Role::Answer, shape.to_string(), shape.clone());
        }
        for pair in &wishes.sums {
            let label = format!("sum of {} and {}", pair.a, pair.b);
            self.add(Role::Sum, label, made(Making::Sum(pair.clone()))?);
        }
        for pair in &wishes.gaps {
            let found = clearance(pair)?;
            self.notes.push(sentence::clearance(pair, found));
            self.strokes.extend(gap_of(pair, found));
        }
        for pair in &wishes.tangents {
            let found = tangents(pair)?;
            self.strokes.extend(tangents_of(pair, found));
        }
        Ok(())
    }
}

/// What the cart meets at its place, in short: all that it touches or overlaps, or else the nearest.
fn met(floor: &Floor, found: &Stand) -> String {
    let label = &found.label;
    if let (position, Some(place)) = found.nearest
        && let Some(near) = floor.shape(position)
    {
        let (distance, _) = between([&found.there, near].map(Called::own).each_ref(), place);
        return format!("{label} is free; the nearest is {near} ({distance})");
    }
    let met = found.met.iter().filter_map(|(position, how)| {
        let verb = match how {
            Relation::Overlapping => "overlaps",
            _ => "touches",
        };
        Some(format!("{verb} {}", floor.shape(*position)?))
    });
    let met: Vec<String> = met.collect();
    format!("{label} {}", met.join(", "))
}

/// Returns the line between the nearest points of two shapes; nothing if they are not apart.
#[must_use]
pub fn gap_of(Pair { a, b }: &Pair, found: Clearance) -> Option<Stroke> {
    let ends = match found.nearest? {
        Nearest::Corners { first, second, .. } => {
            [float(a.corner(first).0), float(b.corner(second).0)]
        }
        Nearest::CornerEdge(across) => foot(a.corner(across.corner).0, b, across.edge),
        Nearest::EdgeCorner(across) => foot(b.corner(across.corner).0, a, across.edge),
    };
    let kind = LineKind::Gap;
    Some(Stroke { kind, ends })
}

/// A corner, and the nearest point of an edge. The point is only drawn: nothing is decided by it.
fn foot(corner: [i32; 2], shape: &Given, edge: usize) -> [[f64; 2]; 2] {
    let edge = shape.edge(edge);
    let ([cx, cy], [ax, ay], [bx, by]) = (float(corner), float(edge.0.0), float(edge.1.0));
    let (dx, dy) = (bx - ax, by - ay);
    let part = ((cx - ax) * dx + (cy - ay) * dy) / (dx * dx + dy * dy);
    [[cx, cy], [ax + part * dx, ay + part * dy]]
}

/// The four lines that just touch both shapes.
fn tangents_of(Pair { a, b }: &Pair, found: Tangents) -> [Stroke; 4] {
    let lines = [found.left, found.right, found.crossing, found.reverse];
    lines.map(|line| Stroke {
        kind: LineKind::Tangent,
        ends: [float(a.corner(line.from).0), float(b.corner(line.to).0)],
    })
}

fn float(corner: [i32; 2]) -> [f64; 2] {
    corner.map(f64::from)
}
