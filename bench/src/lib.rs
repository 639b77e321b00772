//! The proved questions, as the package `cocklesway` has them, beside plain ones: written by hand for speed, with the
//! same checks and the same answers. `agree` compares what they answer, `table` how long they take.
pub mod agree;
mod lists;
mod logs;
mod pairs;
pub mod plain;
mod random;
pub mod reply;
mod rows;
mod runs;
mod shapes;
pub mod table;
mod timing;
