//! What a cart meets on straight drives from place to place, without turning.
use super::Floor;
use crate::answer::{Refused, ask, made};
use crate::called::Called;
use crate::distance::Distance;
use crate::given::{Corner, Edge, Given, Pair};
use crate::question::{Drive, Making, Past, Question};
use cocklesway::{Meeting, Nearest, Refusal};

/// A straight drive.
#[derive(Clone, Debug, PartialEq)]
pub struct Leg {
    /// From where to where the cart's origin is driven.
    pub way: Edge,
    /// What the cart meets.
    pub found: Found,
}

/// What a cart meets on a straight drive.
#[derive(Clone, Debug, PartialEq)]
pub enum Found {
    /// It meets this obstacle first.
    Met(usize, Meeting),
    /// It meets none. The nearest to what it passes over, where, and that shape.
    Clear((usize, Option<Nearest>), Given),
}

/// Returns why a drive was refused, with the name of the obstacle that it is about, if there is one.
fn refused(floor: &Floor, cart: &Given, [from, to]: [[i32; 2]; 2], refusal: Refusal) -> Refused {
    let asked = floor.shapes.iter().map(|obstacle| {
        let (a, b) = (obstacle.clone(), floor.here(cart));
        let pair = Pair { a, b };
        Question::Contact(Drive { pair, from, to })
    });
    let named = asked.filter_map(|question| ask(question).err());
    let mut named = named.filter(|refused| refused.refusal.number() == refusal.number());
    named.next().unwrap_or_else(|| {
        let (log, cart) = (Vec::new(), floor.here(cart));
        let past = Past {
            log,
            cart,
            from,
            to,
        };
        Refused::new(Question::Drive(past), refusal)
    })
}

/// Returns the first obstacle that a cart meets on a straight drive, and where.
///
/// # Errors
/// The library's refusal: 20 if the floor has no obstacle.
pub fn first(
    floor: &Floor,
    cart: &Given,
    ends: [[i32; 2]; 2],
) -> Result<Option<(usize, Meeting)>, Refused> {
    let met = floor.contact(cart, ends);
    met.map_err(|refusal| refused(floor, cart, ends, refusal))
}

/// Drives a cart straight from a place to another, and asks what it meets, or what is nearest to its way.
///
/// # Errors
/// The library's refusal: 20 if the floor has no obstacle.
pub fn leg(floor: &Floor, cart: &Given, [from, to]: [[i32; 2]; 2]) -> Result<Leg, Refused> {
    let way = Edge(Corner(from), Corner(to));
    if let Some((position, meeting)) = first(floor, cart, [from, to])? {
        let found = Found::Met(position, meeting);
        return Ok(Leg { way, found });
    }
    let swept = swept(floor, cart, [from, to])?;
    let found = Found::Clear(floor.nearest(&swept, None)?, swept);
    Ok(Leg { way, found })
}

/// Returns what a cart passes over on a straight drive, without a name: its outline plus the segment of its way.
///
/// # Errors
/// It would reach out of range, or have too many corners.
pub fn swept(floor: &Floor, cart: &Given, [from, to]: [[i32; 2]; 2]) -> Result<Given, Refused> {
    let ends = Given {
        name: None,
        numbers: [from, to].concat().into(),
        floor: Some(floor.number),
    };
    let (a, b) = (floor.here(cart), made(Making::Sweep(ends))?);
    made(Making::Sum(Pair { a, b }))
}

impl Leg {
    /// Returns what the cart meets, in words.
    #[must_use]
    pub fn sentence(&self, floor: &Floor, cart: &Given) -> String {
        match &self.found {
            Found::Met(position, meeting) => {
                let name = floor.shape(*position).map(Given::to_string);
                self.meets(cart, &name.unwrap_or_default(), *meeting)
            }
            Found::Clear(nearest, shape) => {
                let label = format!("{cart} on its way");
                let near = floor.neighbour(&Called { shape, label }, *nearest);
                format!("{cart} is clear from {}: {near}", self.way)
            }
        }
    }

    fn meets(&self, cart: &Given, name: &str, meeting: Meeting) -> String {
        let (n, d, way) = (meeting.numerator, meeting.denominator, self.way);
        if n == 0 {
            return format!("{cart} meets {name} where it begins its way from {way}");
        }
        let distance = Distance::of_part([n, d], way.squared(), meeting.safe);
        format!("{cart} meets {name} first, after {distance}, at {n}/{d} of the way from {way}")
    }

    /// Returns whether the cart meets nothing.
    #[must_use]
    pub fn is_clear(&self) -> bool {
        matches!(self.found, Found::Clear(..))
    }
}
