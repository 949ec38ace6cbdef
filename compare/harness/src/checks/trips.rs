//! Demand 3: the point along the whole chain and what came out back by it, and the other way round.

use crate::compare::{Comparison, Mismatch};
use crate::gen::chains::Chain;
use crate::gen::points;
use crate::subject::Subject;
use paper::numbers::{steps, PointRow};

/// The largest difference seen, by the number of Bursa-Wolf and frame steps.
#[derive(Default, Debug)]
pub struct Trips {
    pub done: u64,
    pub refused: u64,
    pub largest: [i64; 9],
}

/// Runs until so many trips came home: half of them along first, half back first.
pub fn run(c: &mut Comparison, count: u64) -> Result<Trips, Mismatch> {
    let mut trips = Trips::default();
    while trips.done < count {
        let back_first = trips.done % 2 == 1;
        let (chain, point) = input(c, back_first);
        let allowed = chain.count("BF") as usize;
        let mut off = None;
        for subject in c.all() {
            off = trip(subject, &chain, &point, back_first)?;
        }
        match off {
            None => trips.refused += 1,
            Some(off) => {
                trips.done += 1;
                let largest = &mut trips.largest[allowed];
                *largest = off.max(*largest);
            }
        }
    }
    Ok(trips)
}

fn input(c: &mut Comparison, back_first: bool) -> (Chain, PointRow) {
    let length = c.rng.index(9);
    let chain = c.chains.good(&mut c.rng, length);
    let steps = steps(&chain.numbers()).expect("whole rows");
    let position = match c.rng.below(8) {
        0 | 1 if back_first => points::led_back(&mut c.rng, &chain, &steps),
        0 | 1 => points::led_along(&mut c.rng, &chain, &steps),
        _ => points::position(&mut c.rng),
    };
    let place = if back_first { chain.end } else { chain.begin };
    let point = points::point(&mut c.rng, place, position);
    (chain, point)
}

/// How far the point came home from where it was, or nothing where a conversion was refused.
fn trip(
    subject: &dyn Subject,
    chain: &Chain,
    point: &PointRow,
    back_first: bool,
) -> Result<Option<i64>, Mismatch> {
    let (profile, rows, allowed) = (chain.profile, chain.numbers(), chain.count("BF"));
    let home = if back_first {
        subject.inverse(profile, &rows, point).and_then(|away| subject.forward(profile, &rows, &away))
    } else {
        subject.forward(profile, &rows, point).and_then(|away| subject.inverse(profile, &rows, &away))
    };
    let Ok(home) = home else { return Ok(None) };
    let off = (4..7).map(|i| (home[i] - point[i]).abs()).max().unwrap_or(0);
    if home[..4] == point[..4] && off <= allowed {
        return Ok(Some(off));
    }
    let order = if back_first { "back first" } else { "along first" };
    let name = subject.name();
    Err(Mismatch(format!(
        "round trip, {order}: profile {profile} chain {rows:?} point {point:?}\n  {name} came home to {home:?}, allowed {allowed}"
    )))
}
