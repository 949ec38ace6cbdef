//! The rules of document 01 and the orders of docs/ORDERS.md written once more, as plainly as they stand there.
//!
//! This program shares no code, table or constant with the product. It is for reading beside the paper
//! and for comparing: nothing in it is done for speed. Steps are worked out in exact fractions over
//! i128, angles in f64 in the printed order, and the f64 rounding in exact whole numbers.

pub mod angle;
pub mod chain;
pub mod decimal;
pub mod ellipsoid;
pub mod fraction;
pub mod functions;
pub mod geodetic;
pub mod grid;
pub mod join;
pub mod later;
pub mod library;
pub mod lines;
pub mod lot_plan;
pub mod numbers;
pub mod oblique;
pub mod plan;
pub mod profile;
pub mod program;
pub mod ranges;
pub mod refusal;
pub mod row;
pub mod rso;
pub mod series;
pub mod sheet;
pub mod step;
pub mod stream;
