//! RSO both ways: the order bit for bit, document 004's formulas over the library's functions within a micrometre,
//! and there and back.

use super::angles::bits;
use crate::compare::{Comparison, Mismatch, Outcome};
use crate::gen::numbers::{damaged, within, LATITUDE, LONGITUDE};
use crate::gen::rso::{accepted, area_of, damage, good, point, projected, BORNEO, PENINSULA, TIMBALAI};
use crate::subject::Subject;
use crate::tally::Function;
use paper::library::radians;
use paper::oblique::Oblique;
use paper::rso::Parameters;

pub fn run(c: &mut Comparison, count: u64) -> Outcome {
    for _ in 0..count {
        forward(c)?;
        reverse(c)?;
    }
    Ok(())
}

fn forward(c: &mut Comparison) -> Outcome {
    let mut parameters = good(&mut c.rng);
    let mut at = point(&mut c.rng, &parameters);
    while c.rng.once_in(8) {
        damage(&mut c.rng, &mut parameters);
    }
    while c.rng.once_in(8) {
        let place = c.rng.index(2);
        let (low, high) = [LATITUDE, LONGITUDE][place];
        at[place] = damaged(&mut c.rng, low, high);
    }
    let [latitude, longitude] = at;
    let expected = bits(c.reference.rso_forward(&parameters, latitude, longitude));
    c.tally.count(Function::RsoForward, &expected);
    let input = || format!("{parameters:?} {latitude} {longitude}");
    c.hold("RSO forward", input, &expected, |s| bits(s.rso_forward(&parameters, latitude, longitude)))
}

fn reverse(c: &mut Comparison) -> Outcome {
    let mut parameters = good(&mut c.rng);
    let [easting, northing] = projected(&mut c.rng, &parameters);
    while c.rng.once_in(16) {
        damage(&mut c.rng, &mut parameters);
    }
    let expected = c.reference.rso_reverse(&parameters, easting, northing);
    c.tally.count(Function::RsoReverse, &expected);
    let input = || format!("{parameters:?} {easting:?} {northing:?}");
    c.hold("RSO reverse", input, &expected, |s| s.rso_reverse(&parameters, easting, northing))
}

/// Forward by document 004's formulas over the library's functions: the largest distance on an axis in metres, under a
/// micrometre, over the two areas and over every other projection.
pub fn forward_against_library(c: &mut Comparison, count: u64) -> Result<[f64; 2], Mismatch> {
    let mut largest = [0.0_f64; 2];
    for turn in 0..count {
        let (parameters, [latitude, longitude], others) = projection_and_point(c, turn);
        let given = c.reference.rso_forward(&parameters, latitude, longitude);
        let oblique = Oblique::new(&Parameters::new(parameters));
        let expected = oblique.forward(radians(latitude as f64), radians(longitude as f64));
        let off = given.map_or(f64::NAN, |metres| largest_of(metres, expected));
        if off.is_nan() || off > 1e-6 {
            let input = format!("{parameters:?} {latitude} {longitude}");
            return Err(Mismatch(format!("RSO forward {input}: {given:?}, by the library {expected:?}")));
        }
        largest[others] = largest[others].max(off);
    }
    Ok(largest)
}

fn largest_of(one: [f64; 2], other: [f64; 2]) -> f64 {
    (one[0] - other[0]).abs().max((one[1] - other[1]).abs())
}

/// In turn the Peninsula, Borneo, Timbalai, each in its area, and any other projection anywhere (1).
fn projection_and_point(c: &mut Comparison, turn: u64) -> ([i64; 8], [i64; 2], usize) {
    if turn.is_multiple_of(2) {
        let parameters = [PENINSULA, BORNEO, TIMBALAI][(turn / 2 % 3) as usize];
        let (low, high) = area_of(&parameters);
        return (parameters, [within(&mut c.rng, LATITUDE.0, LATITUDE.1), within(&mut c.rng, low, high)], 0);
    }
    let parameters = accepted(&mut c.rng);
    let at = [within(&mut c.rng, LATITUDE.0, LATITUDE.1), within(&mut c.rng, LONGITUDE.0, LONGITUDE.1)];
    (parameters, at, 1)
}

/// How many pairs of E and N the reverse answered and refused.
#[derive(Default, Debug)]
pub struct Reversed {
    pub answered: u64,
    pub outside: u64,
    /// Too near an end of a range to say which it must be.
    pub at_an_end: u64,
}

/// The reverse, anywhere below 10,000 km, answers or refuses as document 004's formulas over the library's functions do
/// in the right quadrant; what it answers is the nearest unit.
pub fn reverse_against_library(c: &mut Comparison, count: u64) -> Result<Reversed, Mismatch> {
    let mut reversed = Reversed::default();
    while reversed.answered + reversed.outside < count {
        let parameters = good(&mut c.rng);
        let [easting, northing] = projected(&mut c.rng, &parameters);
        let given = c.reference.rso_reverse(&parameters, easting, northing);
        if given == Err(23) {
            continue;
        }
        let expected = Oblique::new(&Parameters::new(parameters)).reverse(easting, northing).map(units);
        match judge(given, expected) {
            Some(true) if given.is_ok() => reversed.answered += 1,
            Some(true) => reversed.outside += 1,
            None => reversed.at_an_end += 1,
            Some(false) => {
                let input = format!("{parameters:?} {easting:?} {northing:?}");
                return Err(Mismatch(format!("RSO reverse {input}: {given:?}, by the library {expected:?}")));
            }
        }
    }
    Ok(reversed)
}

/// Units of 0.00001", a longitude east of 99° where there is such a one.
fn units(radians: f64) -> f64 {
    radians.to_degrees() * 360_000_000.0
}

/// Half a unit of rounding, and a thousandth for the two ways of working it out.
const NEAREST: f64 = 0.501;

fn judge(given: Result<[i64; 2], u8>, expected: [f64; 2]) -> Option<bool> {
    let ranges = [LATITUDE, LONGITUDE];
    let inside = |place: usize, spare: f64| {
        let (low, high) = ranges[place];
        low as f64 - spare <= expected[place] && expected[place] <= high as f64 + spare
    };
    match given {
        Ok(angles) => Some((0..2).all(|place| (angles[place] as f64 - expected[place]).abs() <= NEAREST)),
        Err(_) if !inside(0, NEAREST) || !inside(1, NEAREST) => Some(true),
        Err(_) if inside(0, 0.499) && inside(1, 0.499) => Some(false),
        Err(_) => None,
    }
}

/// Forward, then reverse, by every program: the largest difference in units, and the points that didn't come back
/// exactly.
#[derive(Default, Debug)]
pub struct Trips {
    pub largest: i64,
    pub not_exact: u64,
}

pub fn there_and_back(c: &mut Comparison, count: u64) -> Result<Trips, Mismatch> {
    let mut trips = Trips::default();
    for turn in 0..count {
        let (parameters, at, _) = projection_and_point(c, turn);
        let mut off = 0;
        for subject in c.all() {
            off = trip(subject, &parameters, at)?;
        }
        trips.largest = trips.largest.max(off);
        trips.not_exact += u64::from(off != 0);
    }
    Ok(trips)
}

fn trip(
    subject: &dyn Subject,
    parameters: &[i64; 8],
    [latitude, longitude]: [i64; 2],
) -> Result<i64, Mismatch> {
    let there = subject.rso_forward(parameters, latitude, longitude);
    let home = there.and_then(|[easting, northing]| subject.rso_reverse(parameters, easting, northing));
    if let Ok(home) = home {
        let off = (home[0] - latitude).abs().max((home[1] - longitude).abs());
        if off <= 4 {
            return Ok(off);
        }
    }
    let name = subject.name();
    let input = format!("{parameters:?} {latitude} {longitude}");
    Err(Mismatch(format!("RSO there and back {input}\n  {name}: {there:?}, home {home:?}")))
}
