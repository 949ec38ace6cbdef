//! The parts of a comparison. Each counts what the independent program answered.

pub mod angles;
pub mod conversions;
pub mod geodetic;
pub mod grids;
pub mod joins;
pub mod later;
#[cfg(feature = "product")]
pub mod lengths;
pub mod lots;
pub mod roundings;
pub mod rows;
pub mod rso;
pub mod rso_causes;
pub mod streams;
pub mod texts;
pub mod trips;
