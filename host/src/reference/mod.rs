//! Independent implementations, written from docs/REQUIREMENTS.md alone: slow, plain and literal.
pub mod desk;
pub mod older;
pub mod planning;
pub mod reading;
pub mod runner;
pub mod sets;
pub mod size;
pub mod slack;
pub mod usage;
pub mod writing;
