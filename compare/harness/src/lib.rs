//! What the comparison, the wrong programs and the benchmark have in common: one generator of inputs,
//! the programs under one trait, and the tally of what was tried.

pub mod arguments;
pub mod checks;
pub mod compare;
pub mod gen;
pub mod measure;
#[cfg(feature = "product")]
pub mod product;
pub mod programs;
pub mod rng;
pub mod subject;
pub mod tally;
