//! What the page asks.
pub mod drive;
pub mod judge;
pub mod map;
pub mod pair;
pub mod place;
pub mod save;

use super::head::Method;
use super::incoming::Request;
use super::outgoing::{Bad, Code, Response};
use super::pages;
use super::plan::World;
use super::wish::Wish;

/// A question of the page: its address after the token, and how it is answered.
pub struct Route {
    /// Its address.
    pub path: &'static str,
    /// How it is answered.
    pub answer: fn(&World, &Wish) -> Result<Response, Bad>,
}

/// All questions.
pub const ROUTES: &[Route] = &[
    route("map", map::answer),
    route("place", place::answer),
    route("zones", place::zones),
    route("pair", pair::answer),
    route("drive", drive::answer),
    route("judge", judge::answer),
    route("save", save::answer),
];

const fn route(path: &'static str, answer: fn(&World, &Wish) -> Result<Response, Bad>) -> Route {
    Route { path, answer }
}

/// Answers a request for an address. Addresses are looked up in two tables: none is a path of the file system.
///
/// # Errors
/// 400, 404 or 405.
pub fn answer(world: &World, request: &Request, path: &str) -> Result<Response, Bad> {
    let page = pages::find(path);
    let route = ROUTES.iter().find(|route| route.path == path);
    match (page, route, request.head.method) {
        (Some(page), _, Method::Get) => Ok(page.response()),
        (_, Some(route), Method::Post) => {
            let kind = request.head.header("content-type")?;
            if !is_json(kind.unwrap_or_default()) {
                return Err(Bad::request("the Content-Type has to be application/json"));
            }
            (route.answer)(world, &Wish::read(&request.body)?)
        }
        (Some(_), ..) => Err(Bad::new(Code::Method, "a page is fetched with GET")),
        (_, Some(_), _) => Err(Bad::new(Code::Method, "a question is asked with POST")),
        _ => Err(Bad::new(Code::Missing, "there is nothing at this address")),
    }
}

/// Forms of other sites cannot send this kind.
fn is_json(kind: &str) -> bool {
    let kind = kind.split(';').next().unwrap_or_default();
    kind.trim().eq_ignore_ascii_case("application/json")
}
