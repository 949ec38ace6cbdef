//! Inputs, made from a seed: good ones, ones at the ends of ranges, and damaged ones.

pub mod angles;
pub mod chains;
pub mod clashes;
pub mod floats;
pub mod full;
pub mod geodetic;
pub mod grids;
pub mod halves;
pub mod lines;
pub mod lots;
pub mod numbers;
pub mod pairs;
pub mod plans;
pub mod points;
pub mod rso;
pub mod sheets;
pub mod texts;
