//! Positions for the way from X, Y, Z to angles: most of the area lies far from every ellipsoid, so that they are
//! made from angles and heights.

use super::numbers::{damaged, within, AREA, ELLIPSOID, HEIGHT, LATITUDE, LONGITUDE};
use crate::rng::Rng;
use paper::ellipsoid::by_code;
use paper::geodetic::{quantities, SECONDS};
use paper::library::{cartesian, Place};

/// The whole units nearest the position, by the library's functions. The code is one of the four.
pub fn position(code: i64, angles_and_height: [i64; 3]) -> [i64; 3] {
    let e = by_code(code).expect("one of the four codes");
    cartesian(e, Place::from_units(angles_and_height)).map(|metres| (metres * 100000.0).round() as i64)
}

/// A code, and latitude, longitude and height in their ranges, the ends often.
pub fn placed(rng: &mut Rng) -> (i64, [i64; 3]) {
    let code = rng.between(ELLIPSOID.0, ELLIPSOID.1);
    (code, [LATITUDE, LONGITUDE, HEIGHT].map(|(low, high)| within(rng, low, high)))
}

/// A position nearby whose latitude or longitude lies as near a half unit as two axes in whole units can bring it,
/// about a millionth of a unit: there the last bits of an order show in the rounded answer.
pub fn beside_a_half(rng: &mut Rng, code: i64, from: [i64; 3]) -> [i64; 3] {
    const FAR: i64 = 100_000;
    let e = by_code(code).expect("one of the four codes");
    let of_longitude = rng.once_in(2);
    let (fine, coarse) = if of_longitude { (0, 1) } else { (2, 1) };
    let units = |position: [i64; 3]| {
        let q = quantities(e, position);
        (if of_longitude { q.w } else { q.phi }) * SECONDS * 100000.0
    };
    let moved = |axis: usize, by: i64| {
        let mut position = from;
        position[axis] += by;
        position
    };
    let slope = |axis: usize| (units(moved(axis, FAR)) - units(moved(axis, -FAR))) / (2 * FAR) as f64;
    let (along, across) = (slope(fine), slope(coarse));
    let missing = (units(from).floor() + 0.5) - units(from);
    let steps = |j: i64| (missing - j as f64 * across) / along;
    let left_over = |j: i64| (steps(j) - steps(j).round()).abs();
    let best = (-5000..=5000).min_by(|a, b| left_over(*a).total_cmp(&left_over(*b))).expect("not empty");
    let mut position = moved(coarse, best);
    position[fine] += steps(best).round() as i64;
    position
}

/// Code, X, Y, Z: mostly near the ellipsoid, some a little out of the ranges, some anywhere in the area, some damaged.
pub fn numbers(rng: &mut Rng) -> [i64; 4] {
    let (code, mut at) = placed(rng);
    if rng.once_in(4) {
        let place = rng.index(3);
        let (low, high) = [LATITUDE, LONGITUDE, HEIGHT][place];
        let off = rng.small(10_000_000);
        at[place] = rng.pick(&[low - off, high + off]);
    }
    let mut xyz = position(code, at);
    if rng.once_in(32) {
        xyz = beside_a_half(rng, code, xyz);
    }
    let [x, y, z] = xyz;
    let mut values = [code, x, y, z];
    if rng.once_in(2) {
        let axis = 1 + rng.index(3);
        values[axis] += rng.between(-3, 3);
    }
    if rng.once_in(8) {
        let anywhere = AREA.map(|(low, high)| within(rng, low, high));
        values[1..].copy_from_slice(&anywhere);
    }
    while rng.once_in(16) {
        let ranges = [ELLIPSOID, AREA[0], AREA[1], AREA[2]];
        let place = rng.index(4);
        let (low, high) = ranges[place];
        values[place] = damaged(rng, low, high);
    }
    values
}
