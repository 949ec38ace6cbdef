//! The same rules as a plain fast program: i64 and u64 alone, one pass over each line, and a chain made
//! ready once. It is the measure for speed, and it is held to the exact program by the same comparison.

pub mod angle;
pub mod check;
mod elementary;
pub mod geodetic;
pub mod grid;
pub mod later;
pub mod lot_plan;
mod malformed;
pub mod numbers;
pub mod plan;
pub mod program;
pub mod read;
pub mod round;
pub mod rso;
pub mod sheet;
pub mod steps;
pub mod stream;
pub mod write;
