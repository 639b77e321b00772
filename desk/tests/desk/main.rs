//! The program as its users meet it: maps, answers, pictures, options, failures, and files that are no maps at all.
mod books;
mod brute;
mod changes;
mod formats;
mod fuzz;
mod json;
mod maps;
mod objects;
mod pictures;
mod program;
mod rings;
mod running;
mod units;
mod whole_floor;
mod xml;
