//! The commands, one a module.
pub mod ask;
pub mod book;
pub mod check;
pub mod chosen;
pub mod diff;
pub mod draw;
pub mod drive;
pub mod export;
pub mod gaps;
pub mod import;
pub mod nearest;
pub mod passes;
pub mod serve;
pub mod settling;
pub mod stands;
