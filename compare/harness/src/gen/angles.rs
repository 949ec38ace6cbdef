//! Geodetic points and origins.

use super::numbers::{damaged, within, ELLIPSOID, FALSE_ORIGIN, HEIGHT, LATITUDE, LONGITUDE};
use crate::rng::Rng;

/// Code, latitude, longitude, height; one in eight damaged.
pub fn geodetic(rng: &mut Rng) -> [i64; 4] {
    let ranges = [ELLIPSOID, LATITUDE, LONGITUDE, HEIGHT];
    let mut values = ranges.map(|(low, high)| within(rng, low, high));
    damage_some(rng, &mut values, &ranges);
    values
}

/// Code, origin's latitude and longitude, FE, FN; then latitude and longitude; one in eight damaged.
pub fn cassini(rng: &mut Rng) -> [i64; 7] {
    let ranges = [ELLIPSOID, LATITUDE, LONGITUDE, FALSE_ORIGIN, FALSE_ORIGIN, LATITUDE, LONGITUDE];
    let mut values = ranges.map(|(low, high)| within(rng, low, high));
    near(rng, &mut values);
    damage_some(rng, &mut values, &ranges);
    values
}

pub fn origin(rng: &mut Rng) -> [i64; 5] {
    [ELLIPSOID, LATITUDE, LONGITUDE, FALSE_ORIGIN, FALSE_ORIGIN].map(|(low, high)| within(rng, low, high))
}

/// Draws the longitude to the origin's, mostly within the limit and often just at it.
fn near(rng: &mut Rng, values: &mut [i64; 7]) {
    const LIMIT: i64 = 1_440_000_000;
    if rng.once_in(4) {
        // With nothing else added, the last bits of the northing's small terms stay in sight.
        values[5] = values[1];
        if rng.once_in(2) {
            [values[3], values[4]] = [0, 0];
        }
    }
    let apart = match rng.below(8) {
        0 => LIMIT,
        1 => LIMIT + 1,
        2 => 0,
        3 => rng.small(LIMIT),
        4 => return,
        _ => rng.between(0, LIMIT),
    };
    let side = rng.pick(&[-1, 1]);
    for sign in [side, -side] {
        let longitude = values[2] + sign * apart;
        if (LONGITUDE.0..=LONGITUDE.1).contains(&longitude) {
            values[6] = longitude;
        }
    }
}

/// A point for an origin, as the last two of seven numbers.
pub fn near_origin(rng: &mut Rng, origin: [i64; 5]) -> [i64; 2] {
    let mut values = [0; 7];
    values[..5].copy_from_slice(&origin);
    values[5] = within(rng, LATITUDE.0, LATITUDE.1);
    values[6] = within(rng, LONGITUDE.0, LONGITUDE.1);
    near(rng, &mut values);
    [values[5], values[6]]
}

fn damage_some(rng: &mut Rng, values: &mut [i64], ranges: &[(i64, i64)]) {
    while rng.once_in(8) {
        let place = rng.index(values.len());
        let (low, high) = ranges[place];
        values[place] = damaged(rng, low, high);
    }
}
