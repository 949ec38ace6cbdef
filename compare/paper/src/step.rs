//! Document 01, "The four steps": what each coordinate gains, and the way back through one step.

use crate::fraction::nearest;
use crate::profile::Profile;
use crate::ranges::{self, Position};
use crate::refusal::{unless, Refusal, DATUM_EPOCH, KIND_RULE, PROFILE, RANGE};

#[derive(Clone, Copy, Debug, PartialEq, Eq)]
pub struct Realization {
    pub datum: i64,
    /// Thousandths of a year, or 0 for none.
    pub epoch: i64,
}

#[derive(Clone, Copy, Debug, PartialEq, Eq)]
pub enum Convention {
    PositionVector,
    CoordinateFrame,
}

#[derive(Clone, Copy, Debug, PartialEq, Eq)]
pub enum Kind {
    Shift([i64; 3]),
    Velocity([i64; 3]),
    BursaWolf {
        convention: Convention,
        shift: [i64; 3],
        rotation: [i64; 3],
        scale: i64,
    },
    Frame,
    /// A kind or convention number that means none: only the number calls can hand one in.
    Unknown,
}

#[derive(Clone, Copy, Debug, PartialEq, Eq)]
pub struct Step {
    pub kind: Kind,
    pub before: Realization,
    pub after: Realization,
}

/// What a step decides by itself and its chain's profile: 2, 3, 25, 4.
pub fn faults(profile: Profile, step: &Step) -> Result<(), Refusal> {
    unless(numbers_in_range(step), RANGE)?;
    unless(agree(step.before) && agree(step.after), DATUM_EPOCH)?;
    unless(profile.has_step(step), PROFILE)?;
    unless(kind_rule(step), KIND_RULE)
}

fn numbers_in_range(step: &Step) -> bool {
    let kind = match &step.kind {
        Kind::Shift(shift) => ranges::shift(shift),
        Kind::Velocity(velocity) => ranges::velocity(velocity),
        Kind::BursaWolf { shift, rotation, scale, .. } => {
            ranges::shift(shift) && ranges::rotation(rotation) && ranges::scale(*scale)
        }
        Kind::Frame => true,
        Kind::Unknown => false,
    };
    kind && realization_in_range(step.before) && realization_in_range(step.after)
}

pub fn realization_in_range(realization: Realization) -> bool {
    ranges::datum(realization.datum) && ranges::epoch(realization.epoch)
}

/// "The epoch is 0 for datums 1 and 2, and only for them."
pub fn agree(realization: Realization) -> bool {
    (realization.epoch == 0) == (realization.datum <= 2)
}

fn kind_rule(step: &Step) -> bool {
    let (before, after) = (step.before, step.after);
    match step.kind {
        Kind::Velocity(_) => before.datum == after.datum && before.epoch != 0 && after.epoch != 0,
        Kind::Frame => {
            ranges::between(before.datum, 5, 9) && after.datum == 10 && before.epoch == after.epoch
        }
        _ => true,
    }
}

/// g, worked out at the position: what each coordinate gains along the step.
pub fn gain(step: &Step, at: Position) -> Position {
    let exact = at.map(i128::from);
    let parts = match step.kind {
        Kind::Shift(shift) => shift.map(i128::from),
        Kind::Velocity(velocity) => velocity_gain(velocity, step),
        Kind::BursaWolf { convention, shift, rotation, scale } => {
            bursa_wolf_gain(convention, shift, rotation, scale, exact)
        }
        Kind::Frame => frame_gain(step.before, exact),
        Kind::Unknown => unreachable!("refused before it is carried out"),
    };
    parts.map(|part| part as i64)
}

fn velocity_gain(velocity: [i64; 3], step: &Step) -> [i128; 3] {
    let thousandths = i128::from(step.after.epoch - step.before.epoch);
    velocity.map(|v| nearest(i128::from(v) * thousandths, 1000))
}

/// Whole units of 10^-11 radian: the nearest to r times 4.84813681110.
fn radians(r: i64) -> i128 {
    nearest(i128::from(r) * 484_813_681_110, 100_000_000_000)
}

/// Request A7: the rotation in 10^-11 radian times one plus the scale, rounded a second time.
pub fn scaled_rotation(r: i64, s: i128) -> i128 {
    const E11: i128 = 100_000_000_000;
    nearest(radians(r) * (E11 + s), E11)
}

fn bursa_wolf_gain(
    convention: Convention,
    shift: [i64; 3],
    rotation: [i64; 3],
    scale: i64,
    [x, y, z]: [i128; 3],
) -> [i128; 3] {
    const E11: i128 = 100_000_000_000;
    let [dx, dy, dz] = shift.map(i128::from);
    let s = i128::from(scale);
    let [rx, ry, rz] = match convention {
        Convention::PositionVector => rotation.map(|r| scaled_rotation(r, s)),
        Convention::CoordinateFrame => rotation.map(|r| scaled_rotation(-r, s)),
    };
    [
        nearest(dx * E11 + (s * x - rz * y + ry * z), E11),
        nearest(dy * E11 + (rz * x + s * y - rx * z), E11),
        nearest(dz * E11 + (-ry * x + rx * y + s * z), E11),
    ]
}

/// A row of IGN's table: T in units, Tv a year, D in 10^-11, Dv a year.
struct Row {
    t: [i128; 3],
    tv: [i128; 3],
    d: i128,
    dv: i128,
}

const ITRF2000: Row = Row { t: [70, 120, -2610], tv: [10, 10, -190], d: 212, dv: 11 };
const ITRF2008: Row = Row { t: [160, 190, 240], tv: [0, 0, -10], d: -2, dv: 3 };

/// -[(T + Tv dt/1000) + (D + Dv dt/1000) x coordinate / 10^11], over the denominator 10^14.
fn frame_gain(before: Realization, at: [i128; 3]) -> [i128; 3] {
    const E11: i128 = 100_000_000_000;
    let row = if before.datum == 9 { ITRF2008 } else { ITRF2000 };
    let dt = i128::from(before.epoch - 2_010_000);
    let part = |i: usize| {
        let translation = 1000 * row.t[i] + row.tv[i] * dt;
        let scale = 1000 * row.d + row.dv * dt;
        nearest(-(translation * E11 + scale * at[i]), 1000 * E11)
    };
    [part(0), part(1), part(2)]
}

/// Document 01's "along".
pub fn forward(step: &Step, from: Position) -> Position {
    let g = gain(step, from);
    [from[0] + g[0], from[1] + g[1], from[2] + g[2]]
}

/// Document 01's "back": three times the candidate becomes Q less the g worked out at the candidate.
pub fn inverse(step: &Step, q: Position) -> Position {
    let mut candidate = q;
    for _ in 0..3 {
        let g = gain(step, candidate);
        candidate = [q[0] - g[0], q[1] - g[1], q[2] - g[2]];
    }
    candidate
}
