//! Two shapes: their gap, their nearest points, and whether a cart passes between them.
use crate::given::{Pair, Trio};
use crate::json::Json;
use crate::question::{OfTwo, Question};
use crate::serve::outgoing::{Bad, Response};
use crate::serve::plan::World;
use crate::serve::told::{self, asked, field};
use crate::serve::wish::Wish;

/// Returns how near two shapes are, and whether a cart passes straight between them.
///
/// # Errors
/// A shape, the cart or the changes cannot be used.
pub fn answer(world: &World, wish: &Wish) -> Result<Response, Bad> {
    let plan = world.plan(&wish.changes()?)?;
    let (a, b) = (plan.named(&wish.name("a")?)?, plan.named(&wish.name("b")?)?);
    let pair = Pair {
        a: a.clone(),
        b: b.clone(),
    };
    let mut lines = vec![
        format!("relation | {} | {}", field(a), field(b)),
        format!("clearance | {} | {}", field(a), field(b)),
    ];
    let mut members = vec![
        (
            "relation",
            asked(Question::Two(pair.clone(), OfTwo::Relation)),
        ),
        (
            "clearance",
            asked(Question::Two(pair.clone(), OfTwo::Clearance)),
        ),
    ];
    if let Some(name) = wish.optional_name("cart")? {
        let cart = plan.cart(&name)?;
        lines.push(format!(
            "passage | {} | {} | {}",
            field(a),
            field(b),
            field(cart)
        ));
        let trio = Trio {
            left: pair.a,
            right: pair.b,
            cart: cart.clone(),
        };
        members.push(("passage", asked(Question::Passage(trio))));
    }
    members.push(("lines", told::lines(lines)));
    Ok(Response::json(&Json::Object(members)))
}
