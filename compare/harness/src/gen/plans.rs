//! Plans: an origin, then geodetic points, and what goes wrong with them.

use super::numbers::{damaged, ELLIPSOID, FALSE_ORIGIN, LATITUDE, LONGITUDE};
use super::sheets::spoiled;
use super::{angles, lines, texts};
use crate::rng::Rng;

pub fn plan(rng: &mut Rng) -> Vec<u8> {
    match rng.below(64) {
        0 => texts::random(rng),
        1 if rng.once_in(4) => {
            let text = lined(rng, 1_000_000);
            texts::at_the_limit(rng, &text)
        }
        2..=20 => lined(rng, 1_000_000),
        21..=40 => {
            let mut text = lined(rng, 1_000_000);
            texts::damage(rng, &mut text);
            while rng.once_in(3) {
                texts::damage(rng, &mut text);
            }
            text
        }
        _ => {
            let noise = rng.pick(&[3, 8, 30]);
            lined(rng, noise)
        }
    }
}

/// An origin and points, one line in so many spoiled, and now and then a line before or a second origin.
fn lined(rng: &mut Rng, noise: u64) -> Vec<u8> {
    let mut origin = angles::origin(rng);
    let good = origin;
    if rng.once_in(12) {
        damage_origin(rng, &mut origin);
    }
    let mut text = Vec::new();
    if rng.once_in(16) {
        text.extend(geodetic(rng, good));
    }
    let first = lines::origin(&origin);
    text.extend(if rng.once_in(noise) { spoiled(rng, &first) } else { first });
    for _ in 0..rng.below(20) {
        let line = if rng.once_in(20) { lines::origin(&origin) } else { geodetic(rng, good) };
        text.extend(if rng.once_in(noise) { spoiled(rng, &line) } else { line });
    }
    text
}

fn damage_origin(rng: &mut Rng, origin: &mut [i64; 5]) {
    let ranges = [ELLIPSOID, LATITUDE, LONGITUDE, FALSE_ORIGIN, FALSE_ORIGIN];
    for _ in 0..=rng.below(2) {
        let place = rng.index(5);
        let (low, high) = ranges[place];
        origin[place] = damaged(rng, low, high);
    }
}

fn geodetic(rng: &mut Rng, origin: [i64; 5]) -> Vec<u8> {
    let [mut latitude, mut longitude] = angles::near_origin(rng, origin);
    if rng.once_in(10) {
        latitude = damaged(rng, LATITUDE.0, LATITUDE.1);
    }
    if rng.once_in(10) {
        longitude = damaged(rng, LONGITUDE.0, LONGITUDE.1);
    }
    lines::geodetic(&lines::id(rng), &[latitude, longitude])
}
