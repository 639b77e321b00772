//! What a picture shows of a whole floor: gaps below a limit, and a drive with what it meets.
use super::scene::{LineKind, Role, Scene, Stroke, Tag, gap_of};
use crate::answer::{Refused, clearance};
use crate::distance::Distance;
use crate::floor::Floor;
use crate::floor::drive::{Found, Leg, leg};
use crate::floor::gaps::Solids;
use crate::floor::stand::{label_at, placed};
use crate::given::{Corner, Edge, Given, Pair};
use crate::sentence;
use cocklesway::Meeting;

/// The most gaps that are said below the picture; all are marked.
const MOST_SAID: usize = 12;

impl Scene {
    /// Marks the gaps below a limit in millimetres between obstacles that are apart, or those that leave a cart
    /// less.
    ///
    /// # Errors
    /// The library's refusal.
    pub fn add_gaps(
        &mut self,
        floor: &Floor,
        cart: Option<&Given>,
        limit: u64,
    ) -> Result<(), Refused> {
        let solids = Solids::new(floor, cart)?;
        let gaps = solids.below(limit, true, |_| ())?;
        for (number, gap) in gaps.iter().enumerate() {
            if number < MOST_SAID {
                self.notes.push(solids.sentence(*gap));
            }
            let [Some(a), Some(b)] = gap.of.map(|position| floor.shape(position).cloned()) else {
                continue;
            };
            self.add_gap(&Pair { a, b })?;
        }
        let more = gaps.len().saturating_sub(MOST_SAID);
        if more > 0 {
            self.notes.push(format!("and {more} more gaps are marked"));
        }
        Ok(())
    }

    /// Draws the line between the nearest points of two shapes, with their distance.
    fn add_gap(&mut self, pair: &Pair) -> Result<(), Refused> {
        let found = clearance(pair)?;
        let distance = sentence::nearest(pair, found).map(|(distance, _)| distance);
        if let Some((distance, stroke)) = distance.zip(gap_of(pair, found)) {
            // Whether it is rounded down is said below the picture.
            let exact = true;
            let text = Distance { exact, ..distance }.to_string();
            let at = stroke.middle();
            self.tags.push(Tag { text, at });
            self.strokes.push(stroke);
        }
        Ok(())
    }

    /// Draws a drive leg by leg: what the cart passes over, and where it first meets an obstacle.
    ///
    /// # Errors
    /// The library's refusal.
    pub fn add_drive(
        &mut self,
        floor: &Floor,
        cart: &Given,
        places: &[[i32; 2]],
    ) -> Result<(), Refused> {
        for (number, ends) in (1..).zip(places.windows(2)) {
            let [from, to] = *ends else { continue };
            let found = leg(floor, cart, [from, to])?;
            let said = found.sentence(floor, cart);
            self.notes.push(format!("leg {number}: {said}"));
            self.add_leg(number, floor, cart, &found)?;
        }
        Ok(())
    }

    fn add_leg(
        &mut self,
        number: usize,
        floor: &Floor,
        cart: &Given,
        leg: &Leg,
    ) -> Result<(), Refused> {
        let Edge(Corner(from), Corner(to)) = leg.way;
        self.strokes.push(Stroke {
            kind: LineKind::Way,
            ends: [from, to].map(|place| place.map(f64::from)),
        });
        let label = format!("leg {number}");
        match &leg.found {
            Found::Clear(_, swept) => self.add(Role::Way, label, swept.clone()),
            Found::Met(_, meeting) => {
                let there = placed(floor, cart, from)?;
                self.add(Role::Way, label_at(cart, from), there);
                self.strokes.extend(cart_there(cart, [from, to], *meeting));
            }
        }
        Ok(())
    }
}

/// The edges of a cart at the part of its way after which it meets an obstacle. They are only drawn.
fn cart_there(cart: &Given, [from, to]: [[i32; 2]; 2], meeting: Meeting) -> Vec<Stroke> {
    #[allow(clippy::cast_precision_loss)]
    let part = meeting.numerator as f64 / meeting.denominator.max(1) as f64;
    let between = |from: i32, to: i32| f64::from(from) + part * (f64::from(to) - f64::from(from));
    let ([x, y], [u, v]) = (from, to);
    let [x, y] = [between(x, u), between(y, v)];
    let at = |Corner([along, up]): Corner| [x + f64::from(along), y + f64::from(up)];
    let edges = (0..cart.corners().len()).map(|position| cart.edge(position));
    let strokes = edges.map(|edge| Stroke {
        kind: LineKind::Contact,
        ends: [at(edge.0), at(edge.1)],
    });
    strokes.collect()
}
