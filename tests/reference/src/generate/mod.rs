//! Generators with fixed seeds: histories, damaged stores, inputs of hallrun, segments.

mod arguments;
pub mod cases;
mod damage;
pub mod fixed;
mod history;
pub mod lines;
mod losses;
mod plans;
pub mod segments;

pub use history::{history, short_history};
pub use losses::{losing, losses, LOSSES};
