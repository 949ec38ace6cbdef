//! Positions over the area and at its faces, and points.

use super::chains::Chain;
use super::halves;
use super::numbers::{damaged, within, AREA, EPOCH, GIVEN, ISSUE, ORDER};
use crate::rng::Rng;
use paper::numbers::PointRow;
use paper::ranges::Position;
use paper::step::{self, Step};

pub fn position(rng: &mut Rng) -> Position {
    let style = rng.below(4);
    AREA.map(|(low, high)| match style {
        0 => within(rng, low, high),
        // Half units of the Bursa-Wolf fraction need round coordinates.
        1 => rng.between(low / 10_000_000_000, high / 10_000_000_000) * 10_000_000_000,
        _ => rng.between(low, high),
    })
}

/// Within a few units to a few hundred metres of a face, on either side.
pub fn at_a_face(rng: &mut Rng) -> Position {
    let mut position = position(rng);
    let axis = rng.index(3);
    let (low, high) = AREA[axis];
    let off = rng.small(20_000) * rng.pick(&[-1, 1]);
    position[axis] = rng.pick(&[low, high]) + off;
    position
}

/// A place within a chain that is worth coming to: a face, or beside a half of the next step's g; and the
/// number of steps before it.
fn stop(rng: &mut Rng, chain: &Chain) -> (Position, usize) {
    let place = rng.index(chain.rows.len() + 1);
    let position = match chain.rows.get(place) {
        Some(row) if rng.once_in(2) => {
            let anywhere = position(rng);
            halves::beside(rng, row, anywhere)
        }
        _ => at_a_face(rng),
    };
    (position, place)
}

/// A start from which the chain comes to such a place.
pub fn led_along(rng: &mut Rng, chain: &Chain, steps: &[Step]) -> Position {
    let (position, place) = stop(rng, chain);
    steps[..place].iter().rev().fold(position, |at, each| step::inverse(each, at))
}

/// A start from which going back by the chain comes to such a place.
pub fn led_back(rng: &mut Rng, chain: &Chain, steps: &[Step]) -> Position {
    let (position, place) = stop(rng, chain);
    steps[place..].iter().fold(position, |at, each| step::forward(each, at))
}

pub fn point(rng: &mut Rng, [datum, epoch]: [i64; 2], position: Position) -> PointRow {
    let [x, y, z] = position;
    [within(rng, ISSUE.0, ISSUE.1), rng.between(ORDER.0, ORDER.1), datum, epoch, x, y, z]
}

/// One number of the point out of its range, or datum and epoch at odds, or outside the area.
pub fn damage(rng: &mut Rng, point: &mut PointRow) {
    match rng.below(9) {
        0 => point[0] = damaged(rng, ISSUE.0, ISSUE.1),
        1 => point[1] = damaged(rng, ORDER.0, ORDER.1),
        2 => point[2] = damaged(rng, 1, 10),
        3 => point[3] = damaged(rng, EPOCH.0, EPOCH.1),
        4 => point[2] = rng.between(1, 10),
        5 => point[3] = 0,
        6 => point[4 + rng.index(3)] = damaged(rng, GIVEN.0, GIVEN.1),
        7 => point[4 + rng.index(3)] = within(rng, GIVEN.0, GIVEN.1),
        _ => {
            let axis = rng.index(3);
            let (low, high) = AREA[axis];
            point[4 + axis] = rng.pick(&[low - 1, high + 1]);
        }
    }
}
