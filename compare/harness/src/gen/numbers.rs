//! Numbers in a range, at its ends, and out of it.

use crate::rng::Rng;

/// In the range, with its ends, zero and round numbers more often than by chance.
pub fn within(rng: &mut Rng, low: i64, high: i64) -> i64 {
    let width = high - low;
    let value = match rng.below(16) {
        0 => low,
        1 => high,
        2 => low + rng.small(width),
        3 => high - rng.small(width),
        4 => 0,
        5 => rng.small(high.max(1)),
        6 => -rng.small(high.max(1)),
        7 => {
            let round = 10_i64.pow(rng.below(11) as u32) / 2;
            let unit = round.max(1);
            rng.between(low, high) / unit * unit
        }
        _ => rng.between(low, high),
    };
    value.clamp(low, high)
}

/// Mostly just out of the range; sometimes at the ends of 64, 63 or 32 bits; sometimes anything.
pub fn damaged(rng: &mut Rng, low: i64, high: i64) -> i64 {
    match rng.below(8) {
        0 | 1 => low - 1,
        2 | 3 => high + 1,
        4 => low.saturating_sub(rng.small(i64::MAX)),
        5 => high.saturating_add(rng.small(i64::MAX)),
        6 => rng.pick(&[i64::MIN, i64::MIN + 1, i64::MAX, -1, 0, 1, 1 << 32, -(1 << 32), 1 << 62]),
        _ => rng.word() as i64,
    }
}

pub const DATUM: (i64, i64) = (1, 10);
pub const EPOCH: (i64, i64) = (1_980_000, 2_100_000);
pub const ISSUE: (i64, i64) = (1, 65_535);
pub const ORDER: (i64, i64) = (1, 4);
pub const SHIFT: (i64, i64) = (-100_000_000, 100_000_000);
pub const ROTATION: (i64, i64) = (-1_000_000, 1_000_000);
pub const SCALE: (i64, i64) = (-2_000_000, 2_000_000);
pub const VELOCITY: (i64, i64) = (-10_000, 10_000);
pub const GIVEN: (i64, i64) = (-640_000_000_000, 640_000_000_000);
pub const AREA: [(i64, i64); 3] =
    [(-330_000_000_000, -90_000_000_000), (540_000_000_000, 640_000_000_000), (0, 90_000_000_000)];
pub const LATITUDE: (i64, i64) = (0, 2_880_000_000);
pub const LONGITUDE: (i64, i64) = (35_640_000_000, 43_200_000_000);
pub const HEIGHT: (i64, i64) = (-50_000_000, 900_000_000);
pub const FALSE_ORIGIN: (i64, i64) = (-2_000_000_000, 2_000_000_000);
pub const ELLIPSOID: (i64, i64) = (1, 4);

/// Epochs: whole and half years, the two reference epochs, and any.
pub fn epoch(rng: &mut Rng) -> i64 {
    match rng.below(6) {
        0 => rng.pick(&[EPOCH.0, EPOCH.1, 2_000_000, 2_010_000, 2_020_000, 2_006_586]),
        1 => rng.between(EPOCH.0 / 500, EPOCH.1 / 500) * 500,
        2 => 2_000_000 + rng.between(-3, 3),
        _ => rng.between(EPOCH.0, EPOCH.1),
    }
}

/// A datum and an epoch that agree.
pub fn realization(rng: &mut Rng) -> [i64; 2] {
    let datum = rng.between(DATUM.0, DATUM.1);
    at(rng, datum)
}

/// The same, of a datum that the profile has.
pub fn realization_of(rng: &mut Rng, profile: i64) -> [i64; 2] {
    let datum = if profile == 2009 { rng.pick(&[1, 2, 3, 4, 5, 7]) } else { rng.between(DATUM.0, DATUM.1) };
    at(rng, datum)
}

fn at(rng: &mut Rng, datum: i64) -> [i64; 2] {
    [datum, if datum <= 2 { 0 } else { epoch(rng) }]
}
