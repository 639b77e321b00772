//! A shape as it is being edited: whether it is one, why not, and which answers would change.
use super::map::{is_answer, of_event};
use crate::answer::{Refused, ask, made};
use crate::given::{Given, Pair};
use crate::json::Json;
use crate::name::Name;
use crate::question::{Making, OfOne, OfTwo, Question};
use crate::report::sentence;
use crate::serve::outgoing::{Bad, Response};
use crate::serve::plan::{Plan, World};
use crate::serve::text::Change;
use crate::serve::told::{Members, asked, told};
use crate::serve::wish::Wish;
use crate::session::{Event, Outcome};
use cocklesway::Refusal;

/// Returns whether a list is a shape, and what it would change in the map of the file.
///
/// # Errors
/// The shape or the changes cannot be used.
pub fn answer(world: &World, wish: &Wish) -> Result<Response, Bad> {
    let draft = wish.change()?;
    let mut changes = wish.changes()?;
    changes.retain(|change| change.name != draft.name);
    let members = match judged(&draft) {
        Err(refused) => vec![
            ("judge", told(Outcome::Refused(refused))),
            ("accepted", false.into()),
        ],
        Ok(given) => accepted(world, draft, changes, &given)?,
    };
    Ok(Response::json(&Json::Object(members)))
}

/// The shape of a list. A list that is none is asked as a ring: it may be closed or clockwise, begin at any corner, and
/// have corners twice or in line.
fn judged(draft: &Change) -> Result<Given, Refused> {
    let given = Given {
        name: Some(draft.name.clone()),
        numbers: draft.corners.as_flattened().into(),
        floor: Some(draft.floor),
    };
    let Err(refused) = ask(Question::One(given.clone(), OfOne::Judge)) else {
        return Ok(given);
    };
    let name = given.name.clone();
    match made(Making::Ring(given)) {
        Ok(ring) => Ok(Given { name, ..ring }),
        // This one names the corner that turns in.
        Err(ring) if matches!(ring.refusal, Refusal::NotConvex { .. }) => Err(ring),
        Err(_) => Err(refused),
    }
}

/// A list that is a shape, whether its corners had to be written anew, how many are left out, and what it changes.
fn accepted(
    world: &World,
    draft: Change,
    mut changes: Vec<Change>,
    given: &Given,
) -> Result<Members, Bad> {
    let corners = given.corners().to_vec();
    let turned = corners != draft.corners;
    let dropped = draft.corners.len().saturating_sub(corners.len());
    changes.push(Change { corners, ..draft });
    let after = world.plan(&changes)?;
    let mut members = vec![
        ("judge", asked(Question::One(given.clone(), OfOne::Judge))),
        ("accepted", true.into()),
        ("turned", turned.into()),
        ("dropped", dropped.into()),
        ("corners", given.corners().into()),
    ];
    members.extend(effects([&world.original(), &after], &changes, given)?);
    Ok(members)
}

/// What a change of a shape changes: how far it reaches, its neighbour, and the answers of the file.
fn effects([before, after]: [&Plan; 2], changes: &[Change], given: &Given) -> Result<Members, Bad> {
    let old = given.name.as_ref().and_then(|name| before.named(name).ok());
    let old = old.filter(|old| old.floor == given.floor);
    let mut members = Vec::new();
    if let Some(old) = old {
        let renamed = Given {
            name: Name::read(&format!("old-{old}")).ok(),
            ..old.clone()
        };
        let reach = |a: &Given, b: &Given| {
            let (a, b) = (a.clone(), b.clone());
            asked(Question::Two(Pair { a, b }, OfTwo::Excess))
        };
        members.push(("grows", reach(given, &renamed)));
        members.push(("shrinks", reach(&renamed, given)));
        members.push(("before", neighbour(before, old)?));
    }
    members.push(("after", neighbour(after, given)?));
    let (other, same) = compared([before, after], changes);
    members.push(("answers", Json::List(other)));
    members.push(("same", same.into()));
    Ok(members)
}

/// What is nearest to a shape on its floor, or the first that it meets.
fn neighbour(plan: &Plan, shape: &Given) -> Result<Json, Bad> {
    let floor = plan.floor(shape.floor.unwrap_or_default(), None)?;
    let (position, place) = match floor.nearest(shape, floor.position(shape)) {
        Ok(found) => found,
        Err(refused) if refused.refusal == Refusal::TooFew => return Ok(Json::Null),
        Err(refused) => return Ok(told(Outcome::Refused(refused))),
    };
    let about = match place {
        Some(_) => OfTwo::Clearance,
        None => OfTwo::Relation,
    };
    Ok(floor.shape(position).map_or(Json::Null, |other| {
        let (a, b) = (shape.clone(), other.clone());
        asked(Question::Two(Pair { a, b }, about))
    }))
}

/// The answers of the file that differ, each before and after, and how many do not. Apart from the definitions of
/// changed shapes both files have the same lines, in the same order.
fn compared([before, after]: [&Plan; 2], changes: &[Change]) -> (Vec<Json>, usize) {
    let is_kept = |event: &&Event| {
        let is_changed = |name: &Name| changes.iter().any(|change| change.name == *name);
        !event.name.as_ref().is_some_and(is_changed)
    };
    let after = after.events.iter().filter(is_kept);
    let mut differ = Vec::new();
    let mut same = 0;
    for (old, new) in before.events.iter().filter(is_kept).zip(after) {
        if sentence(old) != sentence(new) {
            let pair = vec![("before", of_event(old)), ("after", of_event(new))];
            differ.push(Json::Object(pair));
        } else if is_answer(old) {
            same += 1;
        }
    }
    (differ, same)
}
