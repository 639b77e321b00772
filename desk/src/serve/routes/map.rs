//! The map: floors, their shapes, carts, and what is wrong.
use crate::escape::quoted;
use crate::floor::{floors, is_thing};
use crate::given::Given;
use crate::json::Json;
use crate::map::{Entry, Item, Origin};
use crate::report::sentence;
use crate::sentence::defined;
use crate::serve::outgoing::{Bad, Response};
use crate::serve::plan::{Plan, World};
use crate::serve::told::{self, Members};
use crate::serve::wish::Wish;
use crate::session::{Event, Outcome};

/// Returns the map with changes.
///
/// # Errors
/// The changes cannot be used.
pub fn answer(world: &World, wish: &Wish) -> Result<Response, Bad> {
    let plan = world.plan(&wish.changes()?)?;
    let object = Json::Object(vec![
        ("file", file(&plan.source.name).into()),
        (
            "floors",
            Json::List(
                all_floors(&plan)
                    .map(|floor| of_floor(&plan, floor))
                    .collect(),
            ),
        ),
        ("carts", carts(&plan)),
        ("problems", problems(&plan)),
        ("answers", answers(&plan)),
    ]);
    Ok(Response::json(&object))
}

/// Returns the last part of a file's name: the page needs no folders.
#[must_use]
pub fn file(shown: &str) -> &str {
    match shown.rsplit('/').next() {
        Some("-" | "") | None => "map.txt",
        Some(name) => name,
    }
}

/// Floors of shapes and of lists that were refused.
fn all_floors(plan: &Plan) -> impl Iterator<Item = u16> {
    let mut all = floors(&plan.map);
    all.extend(plan.refused().filter_map(|(_, shape)| shape.floor));
    all.sort_unstable();
    all.dedup();
    all.into_iter()
}

fn of_floor(plan: &Plan, floor: u16) -> Json {
    let items = plan.map.items().filter_map(|item| match &item.entry {
        Entry::Shape { shape, origin } if shape.floor == Some(floor) && is_thing(origin) => {
            Some(of_item(item, shape, origin))
        }
        _ => None,
    });
    let refused = plan
        .refused()
        .filter(|(_, shape)| shape.floor == Some(floor));
    let refused = refused.map(|(event, shape)| {
        let mut members = of_shape(shape);
        members.push(("line", event.place.line.into()));
        members.push(("sentence", sentence(event).into()));
        Json::Object(members)
    });
    Json::Object(vec![
        ("number", i64::from(floor).into()),
        ("shapes", Json::List(items.collect())),
        ("refused", Json::List(refused.collect())),
    ])
}

fn of_item(item: &Item, shape: &Given, origin: &Origin) -> Json {
    let made = match origin {
        Origin::Written => None,
        Origin::Made(making) => Some(making.word()),
    };
    let mut members = of_shape(shape);
    members.push(("line", item.place.line.into()));
    members.push(("made", made.into()));
    members.push(("sentence", defined(shape).into()));
    Json::Object(members)
}

fn of_shape(shape: &Given) -> Members {
    vec![
        ("name", told::name(shape)),
        ("corners", shape.corners().into()),
    ]
}

/// Shapes without a floor.
fn carts(plan: &Plan) -> Json {
    let carts = plan.map.items().filter_map(|item| match &item.entry {
        Entry::Shape { shape, origin } if shape.floor.is_none() => {
            Some(of_item(item, shape, origin))
        }
        _ => None,
    });
    Json::List(carts.collect())
}

/// Lines that are refused or cannot be read: an answer about a floor does not count what they define.
fn problems(plan: &Plan) -> Json {
    let is_problem = |event: &&Event| match event.outcome {
        Outcome::Unreadable(_) => true,
        Outcome::Refused(_) | Outcome::Removed { .. } => event.name.is_some(),
        _ => false,
    };
    Json::List(
        plan.events
            .iter()
            .filter(is_problem)
            .map(of_event)
            .collect(),
    )
}

/// Returns whether an event is what came of a question, and not of a definition.
#[must_use]
pub fn is_answer(event: &Event) -> bool {
    match event.outcome {
        Outcome::Defined { .. } | Outcome::Unreadable(_) => false,
        Outcome::Refused(_) | Outcome::Removed { .. } => event.name.is_none(),
        _ => true,
    }
}

fn answers(plan: &Plan) -> Json {
    let answers = plan.events.iter().filter(|event| is_answer(event));
    Json::List(answers.map(of_event).collect())
}

/// Returns the line of an event and its sentence.
#[must_use]
pub fn of_event(event: &Event) -> Json {
    let name = event.name.as_ref().map(|name| quoted(name.as_str()));
    Json::Object(vec![
        ("line", event.place.line.into()),
        ("name", name.into()),
        ("sentence", sentence(event).into()),
    ])
}
