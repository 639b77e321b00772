//! A floor map in a browser, on this computer only. The page asks, the proved library answers, the page draws.
//!
//! | module | subject |
//! |---|---|
//! | [`server`], [`bounds`] | connections, and what each may take |
//! | [`incoming`], [`head`], [`outgoing`] | requests read, answers written |
//! | [`guard`], [`token`] | who may ask |
//! | [`wish`] | what a request wishes |
//! | [`plan`], [`text`] | the map, also with changes, and as a file |
//! | [`told`] | answers as JSON |
//! | [`pages`], [`routes`] | the page's own files, and the questions that it asks |
pub mod bounds;
pub mod guard;
pub mod head;
pub mod incoming;
pub mod outgoing;
pub mod pages;
pub mod plan;
pub mod routes;
pub mod server;
pub mod text;
pub mod token;
pub mod told;
pub mod wish;
