//! A day's points in one call: every place, and the places past the points.

use crate::compare::{Comparison, Mismatch, Outcome};
use crate::gen::{chains::Chain, points};
use crate::subject::{Day, Subject};
use crate::tally::Function;
use paper::numbers::steps;

pub fn run(c: &mut Comparison, count: u64) -> Outcome {
    for turn in 0..count {
        let day = match turn {
            0..12 => planned(c, [0, 1, 2000][turn as usize % 3], turn as usize / 3),
            _ => any(c),
        };
        let expected = c.reference.row(&day);
        let call = if expected.0 == 0 { Ok(()) } else { Err(expected.0 as u8) };
        if expected.0 != 255 {
            c.tally.count(Function::Row, &call);
        }
        if expected.0 == 0 {
            for place in expected.1.chunks(8).take(day.points.len() / 7) {
                let answer = if place[0] == 0 { Ok(()) } else { Err(place[0] as u8) };
                c.tally.count(Function::RowPoints, &answer);
            }
            as_single_calls(c, &day)?;
        }
        c.hold("row", || format!("{day:?}"), &expected, |s| s.row(&day))?;
    }
    Ok(())
}

/// Rows of no point, one, and a whole day's, by a good chain, refused points among good ones: along and back with an answer each, then with three
/// answers more, then with one too few.
fn planned(c: &mut Comparison, count: usize, plan: usize) -> Day {
    let length = 1 + c.rng.index(8);
    let chain = c.chains.good(&mut c.rng, length);
    let back = plan == 1;
    let points = points_of(c, &chain, back, count);
    let answers = match plan {
        2 => count + 3,
        3 => count.saturating_sub(1),
        _ => count,
    };
    Day {
        profile: chain.profile,
        chain: chain.numbers(),
        direction: i64::from(back),
        points,
        room: 8 * answers,
    }
}

/// Points of one chain and one direction, some of them damaged; now and then a bad chain, a short row of answers, a
/// direction that is none, or a part of a point.
fn any(c: &mut Comparison) -> Day {
    let count = c.rng.small(20) as usize;
    let length = if c.rng.once_in(20) { 9 } else { c.rng.index(9) };
    let mut chain = c.chains.good(&mut c.rng, length);
    let back = c.rng.once_in(2);
    let mut row = points_of(c, &chain, back, count);
    if c.rng.once_in(6) {
        chain.damage(&mut c.rng);
    }
    let direction = match c.rng.below(16) {
        0 => c.rng.pick(&[2, -1, 256, i64::MAX, i64::MIN, 1 << 32]),
        _ => i64::from(back),
    };
    let mut room = 8 * match c.rng.below(8) {
        0 => c.rng.index(count + 1),
        1 | 2 => count + c.rng.index(5),
        _ => count,
    };
    let mut rows = chain.numbers();
    match c.rng.below(24) {
        0 => rows.truncate(c.rng.index(rows.len() + 1)),
        1 => row.truncate(c.rng.index(row.len() + 1)),
        2 => room += 1 + c.rng.index(7),
        _ => {}
    }
    Day { profile: chain.profile, chain: rows, direction, points: row, room }
}

fn points_of(c: &mut Comparison, chain: &Chain, back: bool, count: usize) -> Vec<i64> {
    let steps = steps(&chain.numbers()).expect("whole rows");
    let mut row = Vec::new();
    for _ in 0..count {
        let rng = &mut c.rng;
        let position = match rng.below(6) {
            0 if back => points::led_back(rng, chain, &steps),
            0 => points::led_along(rng, chain, &steps),
            1 => points::at_a_face(rng),
            _ => points::position(rng),
        };
        let place = if back { chain.end } else { chain.begin };
        let mut point = points::point(rng, place, position);
        if rng.once_in(6) {
            points::damage(rng, &mut point);
        }
        row.extend(point);
    }
    row
}

/// Each program's row is what its own single conversions give.
fn as_single_calls(c: &Comparison, day: &Day) -> Outcome {
    for s in c.all() {
        let (_, answers) = s.row(day);
        for (point, place) in day.points.chunks(7).zip(answers.chunks(8)) {
            let point = point.try_into().expect("seven numbers");
            let single = if day.direction == 0 {
                s.forward(day.profile, &day.chain, &point)
            } else {
                s.inverse(day.profile, &day.chain, &point)
            };
            let expected = match single {
                Ok(numbers) => [&[0], &numbers[..]].concat(),
                Err(number) => vec![i64::from(number), 0, 0, 0, 0, 0, 0, 0],
            };
            if place != expected {
                let name = s.name();
                return Err(Mismatch(format!(
                    "row {day:?}\n  {name} has {place:?} at {point:?}\n  by a single call {expected:?}"
                )));
            }
        }
    }
    Ok(())
}
