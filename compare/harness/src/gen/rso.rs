//! Projections for RSO, and points on them both ways.

use super::numbers::{damaged, within, ELLIPSOID, FALSE_ORIGIN, LATITUDE, LONGITUDE};
use crate::rng::Rng;
use paper::library::radians;
use paper::oblique::Oblique;
use paper::rso::Parameters;

/// GDM2000 / Peninsula RSO (EPSG 3375).
pub const PENINSULA: [i64; 8] =
    [1, 1_440_000_000, 36_810_000_000, 116_289_286_728, 116_326_836_850, 99_984_000_000, 804_671_000, 0];
/// GDM2000 / East Malaysia BRSO (EPSG 3376).
pub const BORNEO: [i64; 8] =
    [1, 1_440_000_000, 41_400_000_000, 19_193_691_582, 19_126_836_850, 99_984_000_000, 0, 0];
/// Timbalai 1948 / RSO Borneo, document 004's example.
pub const TIMBALAI: [i64; 8] =
    [4, 1_440_000_000, 41_400_000_000, 19_193_695_370, 19_126_836_850, 99_984_000_000, 0, 0];

const CENTRE_LATITUDE: (i64, i64) = (360_000_000, 2_880_000_000);
const SKEW: [(i64, i64); 2] = [(10_800_000_000, 21_600_000_000), (108_000_000_000, 118_800_000_000)];
const SCALE: (i64, i64) = (99_000_000_000, 101_000_000_000);

/// The longitudes where a projection is used: the Peninsula's, or Borneo's.
pub fn area_of(parameters: &[i64; 8]) -> (i64, i64) {
    if parameters[2] < 39_000_000_000 {
        (LONGITUDE.0, 37_800_000_000)
    } else {
        (39_240_000_000, LONGITUDE.1)
    }
}

fn skew(rng: &mut Rng) -> i64 {
    let (low, high) = rng.pick(&SKEW);
    within(rng, low, high)
}

/// Any accepted parameters, azimuth and rectified angle apart.
pub fn accepted(rng: &mut Rng) -> [i64; 8] {
    [
        rng.between(ELLIPSOID.0, ELLIPSOID.1),
        within(rng, CENTRE_LATITUDE.0, CENTRE_LATITUDE.1),
        within(rng, LONGITUDE.0, LONGITUDE.1),
        skew(rng),
        skew(rng),
        within(rng, SCALE.0, SCALE.1),
        within(rng, FALSE_ORIGIN.0, FALSE_ORIGIN.1),
        within(rng, FALSE_ORIGIN.0, FALSE_ORIGIN.1),
    ]
}

/// A named projection or any other.
pub fn good(rng: &mut Rng) -> [i64; 8] {
    match rng.below(8) {
        0 => PENINSULA,
        1 => BORNEO,
        2 => TIMBALAI,
        _ => accepted(rng),
    }
}

/// A latitude and longitude in range, often in the projection's own area.
pub fn point(rng: &mut Rng, parameters: &[i64; 8]) -> [i64; 2] {
    let (low, high) = if rng.once_in(2) { area_of(parameters) } else { LONGITUDE };
    [within(rng, LATITUDE.0, LATITUDE.1), within(rng, low, high)]
}

/// Some of the parameters out of their ranges.
pub fn damage(rng: &mut Rng, parameters: &mut [i64; 8]) {
    let place = rng.index(8);
    let (low, high) = match place {
        0 => ELLIPSOID,
        1 => rng.pick(&[CENTRE_LATITUDE, LATITUDE]),
        2 => LONGITUDE,
        3 | 4 => rng.pick(&SKEW),
        5 => SCALE,
        _ => FALSE_ORIGIN,
    };
    parameters[place] = match rng.below(8) {
        // A latitude that points have and a centre may not; an angle already less a full turn, or a turn more.
        0 if place == 1 => rng.between(0, CENTRE_LATITUDE.0 - 1),
        0 if place == 3 || place == 4 => parameters[place] - 129_600_000_000,
        1 if place == 3 || place == 4 => parameters[place] + 129_600_000_000,
        _ => damaged(rng, low, high),
    };
}

/// Easting and northing: of a point, at a half unit of angle, a little outside the ranges, at the gate, anywhere, or
/// no number that a position has.
pub fn projected(rng: &mut Rng, parameters: &[i64; 8]) -> [f64; 2] {
    let oblique = Oblique::new(&Parameters::new(*parameters));
    let [latitude, longitude] = point(rng, parameters);
    let (mut latitude, mut longitude) = (latitude as f64, longitude as f64);
    match rng.below(16) {
        0..=3 => {
            latitude += rng.pick(&[0.0, 0.5, -0.5]);
            longitude += rng.pick(&[0.0, 0.5, -0.5]);
        }
        4 | 5 => {
            let off = rng.small(400_000_000) as f64;
            latitude = rng.pick(&[latitude, LATITUDE.0 as f64 - off, LATITUDE.1 as f64 + off]);
            longitude = rng.pick(&[longitude, LONGITUDE.0 as f64 - off, LONGITUDE.1 as f64 + off]);
        }
        6 => return at_the_gate(rng, &oblique),
        7 => return [anywhere(rng), anywhere(rng)],
        8 => return [special(rng), anywhere(rng)],
        9 => return [anywhere(rng), special(rng)],
        _ => {}
    }
    let metres = oblique.forward(radians(latitude), radians(longitude));
    if rng.once_in(4) {
        return metres.map(|value| (value * 1000.0).round() / 1000.0);
    }
    metres
}

fn at_the_gate(rng: &mut Rng, oblique: &Oblique) -> [f64; 2] {
    let mut skewed = [0.0; 2].map(|_: f64| rng.between(-1_000_000, 1_000_000) as f64 / 1_000_000.0);
    skewed[rng.index(2)] =
        rng.pick(&[-1.0, 1.0]) + rng.small(1 << 40) as f64 / 2e12 * rng.pick(&[-1.0, 0.0, 1.0]);
    oblique.unskewed(skewed)
}

fn anywhere(rng: &mut Rng) -> f64 {
    rng.between(-10_000_000_000, 10_000_000_000) as f64 / 1000.0
}

fn special(rng: &mut Rng) -> f64 {
    const LIMIT: f64 = 10_000_000.0;
    let below = f64::from_bits(LIMIT.to_bits() - 1);
    let above = f64::from_bits(LIMIT.to_bits() + 1);
    let size =
        rng.pick(&[f64::NAN, f64::INFINITY, LIMIT, below, above, f64::MAX, 1e300, 0.0, f64::from_bits(1)]);
    if rng.once_in(2) {
        -size
    } else {
        size
    }
}
