//! Geodetic to Cartesian, and Cassini: f64 bit for bit, and whole units.

use crate::compare::{Comparison, Outcome};
use crate::gen::angles;
use crate::subject::{Answer, Subject};
use crate::tally::Function;

pub fn bits<const N: usize>(answer: Answer<[f64; N]>) -> Answer<[u64; N]> {
    answer.map(|values| values.map(f64::to_bits))
}

pub fn run(c: &mut Comparison, count: u64) -> Outcome {
    for _ in 0..count {
        cartesian(c)?;
        cassini(c)?;
    }
    Ok(())
}

fn cartesian(c: &mut Comparison) -> Outcome {
    let numbers = angles::geodetic(&mut c.rng);
    let input = || format!("ellipsoid, latitude, longitude, height {numbers:?}");
    let expected = bits(c.reference.cartesian(&numbers));
    c.tally.count(Function::Cartesian, &expected);
    c.hold("cartesian", input, &expected, |s| bits(s.cartesian(&numbers)))?;
    let expected = c.reference.cartesian_units(&numbers);
    c.tally.count(Function::CartesianUnits, &expected);
    c.hold("cartesian units", input, &expected, |s| s.cartesian_units(&numbers))
}

fn cassini(c: &mut Comparison) -> Outcome {
    let numbers = angles::cassini(&mut c.rng);
    let input = || format!("ellipsoid, origin, FE, FN, latitude, longitude {numbers:?}");
    let expected = bits(c.reference.cassini(&numbers));
    c.tally.count(Function::Cassini, &expected);
    c.hold("cassini", input, &expected, |s| bits(s.cassini(&numbers)))?;
    let expected = c.reference.cassini_millimetres(&numbers);
    c.tally.count(Function::CassiniMillimetres, &expected);
    c.hold("cassini millimetres", input, &expected, |s| s.cassini_millimetres(&numbers))
}
