//! The map as a file.
use super::super::outgoing::{Bad, Code, Response};
use crate::serve::plan::World;
use crate::serve::wish::Wish;

/// Returns the file with changes. It is downloaded by the page: nothing is written here.
///
/// # Errors
/// The changes cannot be used.
pub fn answer(world: &World, wish: &Wish) -> Result<Response, Bad> {
    let plan = world.plan(&wish.changes()?)?;
    Ok(Response {
        code: Code::Fine,
        kind: "text/plain; charset=utf-8",
        body: plan.source.bytes.clone().into(),
    })
}
