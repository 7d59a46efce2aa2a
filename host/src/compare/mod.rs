//! The library against other implementations, call by call: what the tests run a fixed number of times and `fuzz` as long as it is
//! asked to. A difference ends the program with the bytes and figures that show it.
mod asking;
pub mod desk;
mod left;
pub mod limited;
pub mod neighbours;
pub mod older;
pub mod planning;
pub mod runner;
pub mod search;
pub mod sets;
pub mod sheet_calls;
pub mod sheets;
pub mod sizing;
pub mod slack;
pub mod two_passes;
pub mod usage;
