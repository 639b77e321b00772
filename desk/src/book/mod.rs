//! A floor book on disk: a file that is the library's log, byte for byte, and beside it a file of names and a lock.
//!
//! | module | subject |
//! |---|---|
//! | [`stores`] | an addition as single stores, in the order that the library has |
//! | [`disk`] | bytes stored and made sure of; files put in place of others |
//! | [`names`] | which number has which name |
//! | [`shelf`] | the files of a book, and what is done to them |
//!
//! The library is asked before anything is changed, so that what it refuses changes nothing. An addition stores single
//! bytes in the proved order: wherever it is stopped, every name reads as before, or as afterwards. A packing is
//! written to a second file, which then takes the place of the first one.
pub mod disk;
pub mod names;
pub mod shelf;
pub mod stores;
