//! Positions at which a part of a Bursa-Wolf step's g lies beside a half: the places where one unit more
//! or less in a candidate, or a rounding done otherwise, shows.

use super::chains::Row;
use crate::rng::Rng;
use paper::ranges::Position;
use paper::step::scaled_rotation;

const E11: i128 = 100_000_000_000;

/// Moves one coordinate so that one part of g comes within that coordinate's unit of a half. A step of
/// another kind, or a factor too small to get there within a metre, leaves the position as it is.
pub fn beside(rng: &mut Rng, row: &Row, mut position: Position) -> Position {
    if row[0] != i64::from(b'B') {
        return position;
    }
    let factors = factors(row)[rng.index(3)];
    let axis = rng.index(3);
    if factors[axis].abs() < 1_000_000 {
        return position;
    }
    let sum: i128 = (0..3).map(|i| factors[i] * i128::from(position[i])).sum();
    let short = (E11 / 2 - sum).rem_euclid(E11);
    position[axis] += (short / factors[axis]) as i64 + rng.between(-1, 1);
    position
}

/// The factors of X, Y, Z in the three parts; whole shifts change no fraction.
fn factors(row: &Row) -> [[i128; 3]; 3] {
    let sign = if row[1] == i64::from(b'C') { -1 } else { 1 };
    let s = i128::from(row[12]);
    let turned = |r: i64| sign * scaled_rotation(r, s);
    let [rx, ry, rz] = [turned(row[9]), turned(row[10]), turned(row[11])];
    [[s, -rz, ry], [rz, s, -rx], [-ry, rx, s]]
}
