//! From X, Y, Z to latitude, longitude and height: the order bit for bit, another method within a millimetre, there
//! and back, and every cause of a refusal.

use crate::compare::{Comparison, Mismatch, Outcome};
use crate::gen::geodetic::{numbers, placed, position};
use crate::gen::numbers::{AREA, HEIGHT, LATITUDE, LONGITUDE};
use crate::subject::Subject;
use crate::tally::Function;
use paper::ellipsoid::by_code;
use paper::library::{self, Place};

pub fn run(c: &mut Comparison, count: u64) -> Outcome {
    for _ in 0..count {
        let numbers = numbers(&mut c.rng);
        let expected = c.reference.geodetic(&numbers);
        c.tally.count(Function::Geodetic, &expected);
        let input = || format!("ellipsoid, X, Y, Z {numbers:?}");
        c.hold("from Cartesian", input, &expected, |s| s.geodetic(&numbers))?;
    }
    Ok(())
}

/// The iteration over the library's functions, on so many points that aren't refused: the largest distance in
/// metres, which is under a millimetre.
pub fn against_iteration(c: &mut Comparison, count: u64) -> Result<f64, Mismatch> {
    let mut largest = 0.0_f64;
    let mut done = [0; 4];
    while done.iter().sum::<u64>() < count {
        let (code, at) = placed(&mut c.rng);
        // A centimetre or so to each side, so that the angles lie anywhere between whole units.
        let [x, y, z] = position(code, at).map(|units| units + c.rng.between(-1000, 1000));
        let numbers = [code, x, y, z];
        let Ok(answer) = c.reference.geodetic(&numbers) else { continue };
        let e = by_code(code).expect("one of the four codes");
        let expected = library::geodetic(e, [x, y, z].map(|units| units as f64 / 100000.0));
        let off = library::apart(e, expected, Place::from_units(answer));
        if off.is_nan() || off > 0.001 {
            return Err(Mismatch(format!("iteration {numbers:?}: {answer:?} is {off} m from {expected:?}")));
        }
        c.hold("iteration", || format!("{numbers:?}"), &Ok(answer), |s| s.geodetic(&numbers))?;
        largest = largest.max(off);
        done[(code - 1) as usize] += 1;
    }
    if done.iter().any(|of_one| *of_one < count / 8) {
        return Err(Mismatch(format!("iteration: points by ellipsoid {done:?}")));
    }
    Ok(largest)
}

/// What came of geodetic to Cartesian in units and back.
#[derive(Default, Debug)]
pub struct Trips {
    pub heights_a_unit_off: u64,
    /// A height at an end of its range that came back a unit past it, which is 12.
    pub past_the_end: u64,
}

/// Every program by itself: the angles as they were, the height within a unit.
pub fn there_and_back(c: &mut Comparison, count: u64) -> Result<Trips, Mismatch> {
    let mut trips = Trips::default();
    for _ in 0..count {
        let (code, at) = placed(&mut c.rng);
        let mut home = Ok(at);
        for subject in c.all() {
            home = trip(subject, code, at)?;
        }
        match home {
            Ok(home) => trips.heights_a_unit_off += u64::from(home != at),
            Err(_) => trips.past_the_end += 1,
        }
    }
    Ok(trips)
}

fn trip(subject: &dyn Subject, code: i64, at: [i64; 3]) -> Result<Result<[i64; 3], u8>, Mismatch> {
    let [latitude, longitude, height] = at;
    let there = subject.cartesian_units(&[code, latitude, longitude, height]);
    let home = there.and_then(|[x, y, z]| subject.geodetic(&[code, x, y, z]));
    let good = match home {
        Ok(home) => home[..2] == at[..2] && (home[2] - height).abs() <= 1,
        Err(number) => number == 12 && (height == HEIGHT.0 || height == HEIGHT.1),
    };
    if good {
        return Ok(home);
    }
    let name = subject.name();
    Err(Mismatch(format!("there and back, ellipsoid {code}: {at:?}\n  {name} came home to {home:?}")))
}

/// Every refusal by every cause, and the nearest input that is not refused for it.
pub fn causes(c: &mut Comparison) -> Outcome {
    let middle = [1_440_000_000, 39_600_000_000, 10_000_000];
    let [x, y, z] = position(1, middle);
    for code in [i64::MIN, -1, 0, 5, 256 + 1, i64::MAX] {
        decide(c, [code, x, y, z], Err(2))?;
        decide(c, [code, i64::MIN, i64::MAX, -1], Err(2))?;
    }
    for axis in 0..3 {
        let (low, high) = AREA[axis];
        for outside in
            [low - 1, high + 1, 640_000_000_001, -640_000_000_001, i64::MIN, i64::MIN + 1, i64::MAX]
        {
            let mut numbers = [1, x, y, z];
            numbers[axis + 1] = outside;
            decide(c, numbers, Err(10))?;
        }
    }
    for numbers in corners() {
        decide(c, numbers, Err(12))?;
    }
    for code in 1..=4 {
        ends(c, code, middle)?;
    }
    Ok(())
}

/// The corners of the area are in it, but thousands of kilometres from any height.
fn corners() -> impl Iterator<Item = [i64; 4]> {
    (0..8).map(|corner: usize| {
        let side = |axis: usize| if corner >> axis & 1 == 0 { AREA[axis].0 } else { AREA[axis].1 };
        [1 + corner as i64 % 4, side(0), side(1), side(2)]
    })
}

/// Just inside and just outside each end of each range. A unit of height can be lost on the way, so that two
/// units past the end are asked for there; the latitude's lower end is the area's own, where Z is 0.
fn ends(c: &mut Comparison, code: i64, middle: [i64; 3]) -> Outcome {
    let ends =
        [(0, LATITUDE.1, 1), (1, LONGITUDE.0, -1), (1, LONGITUDE.1, 1), (2, HEIGHT.0, -2), (2, HEIGHT.1, 2)];
    for (place, end, out) in ends {
        let mut at = middle;
        at[place] = if place == 2 { end - out } else { end };
        let mut inside = vec![code];
        inside.extend(position(code, at));
        let numbers: [i64; 4] = inside.try_into().expect("four numbers");
        match c.reference.geodetic(&numbers) {
            Ok(home) if home[place] == at[place] || place == 2 => decide(c, numbers, Ok(home))?,
            other => return Err(Mismatch(format!("just inside {at:?}: {other:?}"))),
        }
        at[place] = end + out;
        let [x, y, z] = position(code, at);
        decide(c, [code, x, y, z], Err(12))?;
    }
    let [x, y, z] = position(code, [0, middle[1], middle[2]]);
    match c.reference.geodetic(&[code, x, y, z]) {
        Ok([0, ..]) => decide(c, [code, x, y, -1], Err(10)),
        other => Err(Mismatch(format!("on the equator: {other:?}"))),
    }
}

fn decide(c: &mut Comparison, numbers: [i64; 4], expected: Result<[i64; 3], u8>) -> Outcome {
    let given = c.reference.geodetic(&numbers);
    if given != expected {
        return Err(Mismatch(format!("causes {numbers:?}: independent {given:?}, not {expected:?}")));
    }
    c.hold("causes", || format!("{numbers:?}"), &expected, |s| s.geodetic(&numbers))
}
