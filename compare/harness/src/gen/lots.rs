//! Lots for the tracker: a chain text, a point line, an ellipsoid and a state origin.

use super::numbers::{damaged, within, ELLIPSOID, FALSE_ORIGIN, LATITUDE, LONGITUDE};
use super::{chains::Chains, geodetic, lines, points, sheets, texts};
use crate::rng::Rng;
use crate::subject::Lot;
use paper::numbers::steps;
use paper::step;

/// A chain of either profile, and a point that it leads to a place near the ellipsoid; an origin within reach. Then, one part in
/// so many, spoiled: the text, the line, the point, the origin or the room.
pub fn lot(rng: &mut Rng, chains: &Chains) -> Lot {
    let length = if rng.once_in(12) { 9 } else { rng.index(9) };
    let mut chain = chains.good(rng, length);
    let (code, at) = geodetic::placed(rng);
    let end = geodetic::position(code, at);
    let back = steps(&chain.numbers()).expect("whole rows");
    let start = back.iter().rev().fold(end, |at, each| step::inverse(each, at));
    let mut point = points::point(rng, chain.begin, start);
    if rng.once_in(12) {
        points::damage(rng, &mut point);
    }
    if rng.once_in(16) {
        chain.damage(rng);
    }
    let mut text =
        if chain.profile != 2021 || rng.once_in(4) { lines::edition(chain.profile) } else { Vec::new() };
    text.extend(chain.rows.iter().flat_map(lines::step));
    let mut line = lines::point(&lines::id(rng), &point);
    if rng.once_in(10) {
        text = other_text(rng, chains, text, &line);
    }
    if rng.once_in(12) {
        line = sheets::spoiled(rng, &line);
    }
    let room =
        if rng.once_in(12) { rng.pick(&[0, 1, 77, 198, 199]) } else { rng.pick(&[200, 200, 201, 300]) };
    Lot { text, line, origin: origin(rng, code, at[1]), room }
}

fn origin(rng: &mut Rng, code: i64, longitude: i64) -> [i64; 5] {
    let apart = match rng.below(8) {
        0 => rng.pick(&[-1_440_000_001, -1_440_000_000, 1_440_000_000, 1_440_000_001]),
        1 => rng.between(-3_000_000_000, 3_000_000_000),
        _ => rng.between(-1_440_000_000, 1_440_000_000),
    };
    let mut origin = [
        code,
        within(rng, LATITUDE.0, LATITUDE.1),
        (longitude + apart).clamp(LONGITUDE.0, LONGITUDE.1),
        within(rng, FALSE_ORIGIN.0, FALSE_ORIGIN.1),
        within(rng, FALSE_ORIGIN.0, FALSE_ORIGIN.1),
    ];
    for (value, (low, high)) in
        origin.iter_mut().zip([ELLIPSOID, LATITUDE, LONGITUDE, FALSE_ORIGIN, FALSE_ORIGIN])
    {
        if rng.once_in(30) {
            *value = damaged(rng, low, high);
        }
    }
    if rng.once_in(8) {
        origin[0] = rng.between(ELLIPSOID.0, ELLIPSOID.1);
    }
    origin
}

/// A chain text that is none: a point line in it, an edition elsewhere, damaged bytes, a sheet, or a long one.
fn other_text(rng: &mut Rng, chains: &Chains, mut text: Vec<u8>, line: &[u8]) -> Vec<u8> {
    match rng.below(8) {
        0 => text.extend(line),
        1 => text.extend(lines::edition(rng.pick(&[2009, 2021, 2010]))),
        2 => text = sheets::sheet(rng, chains),
        3 if rng.once_in(8) => text = texts::at_the_limit(rng, &text),
        4 => text.extend(rng.pick(&["\n", "X\n", "G\t1\n", "S\n", "E\n"]).as_bytes()),
        5 => drop(text.pop()),
        _ => texts::damage(rng, &mut text),
    }
    text
}
