//! Conversions by value: 13 numbers a step, 6 a point.

use crate::check::{self, Kind, Place, Point, Profile, Step, JOIN, NINTH, PROFILE, RANGE, ROW};
use crate::steps::Chain;

/// Issue, order, datum, epoch, X, Y, Z.
pub type PointRow = [i64; 7];

const WRONG_LENGTH: u8 = 255;

pub fn forward(profile: i64, rows: &[i64], point: &[i64]) -> Result<PointRow, u8> {
    convert(profile, rows, point, Chain::forward)
}

pub fn inverse(profile: i64, rows: &[i64], point: &[i64]) -> Result<PointRow, u8> {
    convert(profile, rows, point, Chain::inverse)
}

#[inline]
fn convert(
    profile: i64,
    rows: &[i64],
    point: &[i64],
    way: impl Fn(&Chain, Point) -> Result<Point, u8>,
) -> Result<PointRow, u8> {
    let &[issue, order, datum, epoch, x, y, z] = point else { return Err(WRONG_LENGTH) };
    if !rows.len().is_multiple_of(13) {
        return Err(WRONG_LENGTH);
    }
    let profile = Profile::of(profile)?;
    let chain = chain(profile, rows)?;
    let point = Point { issue, order, place: Place { datum, epoch }, xyz: [x, y, z] };
    let fault = check::point(&point);
    if fault != 0 {
        return Err(fault);
    }
    if !profile.has(point.place.datum) {
        return Err(PROFILE);
    }
    let Point { issue, order, place, xyz: [x, y, z] } = way(&chain, point)?;
    Ok([issue, order, place.datum, place.epoch, x, y, z])
}

/// A day's points: the chain made ready once. Answers have 8 numbers each.
pub fn row(
    profile: i64,
    rows: &[i64],
    direction: i64,
    points: &[i64],
    answers: &mut [i64],
) -> Result<(), u8> {
    if !rows.len().is_multiple_of(13) || !points.len().is_multiple_of(7) || !answers.len().is_multiple_of(8) {
        return Err(WRONG_LENGTH);
    }
    if points.len() / 7 > answers.len() / 8 {
        return Err(ROW);
    }
    let back = match direction {
        0 => false,
        1 => true,
        _ => return Err(RANGE),
    };
    let profile = Profile::of(profile)?;
    let chain = chain(profile, rows)?;
    for (point, answer) in points.chunks_exact(7).zip(answers.chunks_exact_mut(8)) {
        let point = Point {
            issue: point[0],
            order: point[1],
            place: Place { datum: point[2], epoch: point[3] },
            xyz: [point[4], point[5], point[6]],
        };
        answer.copy_from_slice(&match one(profile, &chain, back, point) {
            Ok(Point { issue, order, place, xyz: [x, y, z] }) => {
                [0, issue, order, place.datum, place.epoch, x, y, z]
            }
            Err(number) => [i64::from(number), 0, 0, 0, 0, 0, 0, 0],
        });
    }
    Ok(())
}

#[inline]
fn one(profile: Profile, chain: &Chain, back: bool, point: Point) -> Result<Point, u8> {
    let fault = check::point(&point);
    if fault != 0 {
        return Err(fault);
    }
    if !profile.has(point.place.datum) {
        return Err(PROFILE);
    }
    if back {
        chain.inverse(point)
    } else {
        chain.forward(point)
    }
}

/// Two chains as one, the rows as they stand.
pub fn join(first_profile: i64, first: &[i64], second_profile: i64, second: &[i64]) -> Result<Vec<i64>, u8> {
    if !first.len().is_multiple_of(13) || !second.len().is_multiple_of(13) {
        return Err(WRONG_LENGTH);
    }
    let profile = sound(first_profile, first)?;
    let other = sound(second_profile, second)?;
    let meets = match (first.last_chunk::<13>(), second.first_chunk::<13>()) {
        (Some(last), Some(next)) => last[4..6] == next[2..4],
        _ => true,
    };
    if !meets {
        Err(JOIN)
    } else if first.len() + second.len() > 8 * 13 {
        Err(NINTH)
    } else if profile != other {
        Err(PROFILE)
    } else {
        Ok([first, second].concat())
    }
}

/// The chain's own faults, without making it ready.
pub(crate) fn sound(profile: i64, rows: &[i64]) -> Result<Profile, u8> {
    let profile = Profile::of(profile)?;
    if rows.len() > 8 * 13 {
        return Err(NINTH);
    }
    let mut last = None;
    for row in rows.chunks_exact(13) {
        let step = step(row);
        let fault = check::step(profile, &step);
        if fault != 0 {
            return Err(fault);
        }
        if last.is_some_and(|after| after != step.before) {
            return Err(JOIN);
        }
        last = Some(step.after);
    }
    Ok(profile)
}

pub(crate) fn chain(profile: Profile, rows: &[i64]) -> Result<Chain, u8> {
    if rows.len() > 8 * 13 {
        return Err(NINTH);
    }
    let mut chain = Chain::with_room();
    for row in rows.chunks_exact(13) {
        let step = step(row);
        let fault = check::step(profile, &step);
        if fault != 0 {
            return Err(fault);
        }
        if !chain.joins(&step) {
            return Err(JOIN);
        }
        chain.push(&step);
    }
    Ok(chain)
}

fn step(row: &[i64]) -> Step {
    const T: i64 = b'T' as i64;
    const V: i64 = b'V' as i64;
    const B: i64 = b'B' as i64;
    const F: i64 = b'F' as i64;
    const P: i64 = b'P' as i64;
    const C: i64 = b'C' as i64;
    let kind = match (row[0], row[1]) {
        (T, _) => Kind::Shift,
        (V, _) => Kind::Velocity,
        (B, P) => Kind::Rotated { sign: 1 },
        (B, C) => Kind::Rotated { sign: -1 },
        (F, _) => Kind::Frame,
        _ => Kind::Unknown,
    };
    let mut numbers = [0; 7];
    numbers.copy_from_slice(&row[6..]);
    let before = Place { datum: row[2], epoch: row[3] };
    Step { kind, before, after: Place { datum: row[4], epoch: row[5] }, numbers }
}
