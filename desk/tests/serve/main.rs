//! The map in a browser, without a browser: raw requests to a server of this test.
mod answers;
mod bounds;
mod edits;
mod guard;
mod program;
mod server;
mod strange;
