//! Roundings of f64.

use crate::compare::{Comparison, Outcome};
use crate::gen::floats;
use crate::tally::Function;

pub fn run(c: &mut Comparison, count: u64) -> Outcome {
    for _ in 0..count {
        let places = floats::places(&mut c.rng);
        let x = floats::float(&mut c.rng, places);
        let expected = paper::decimal::round(x, places);
        c.tally.count(Function::Round, &expected);
        let input = || format!("{x:?} (bits {:#018x}) to {places} places", x.to_bits());
        c.hold("round", input, &expected, |s| s.round(x, places))?;
    }
    Ok(())
}
