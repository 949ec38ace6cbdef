//! Conversions by value, each way.

use crate::compare::{Comparison, Outcome};
use crate::gen::chains::Chain;
use crate::gen::points;
use crate::tally::Function;
use paper::numbers::{steps, PointRow};

pub fn run(c: &mut Comparison, count: u64) -> Outcome {
    for _ in 0..count {
        one(c, false)?;
        one(c, true)?;
    }
    Ok(())
}

fn one(c: &mut Comparison, back: bool) -> Outcome {
    let chain = chain(c);
    let point = point(c, &chain, back);
    let (profile, rows) = (chain.profile, chain.numbers());
    let function = if back { Function::Inverse } else { Function::Forward };
    let ask = |s: &dyn crate::subject::Subject| {
        if back {
            s.inverse(profile, &rows, &point)
        } else {
            s.forward(profile, &rows, &point)
        }
    };
    let expected = ask(&c.reference);
    c.tally.count(function, &expected);
    let what = if back { "inverse" } else { "forward" };
    c.hold(what, || format!("profile {profile} chain {rows:?} point {point:?}"), &expected, ask)
}

/// 0 to 9 steps, one chain in five damaged.
fn chain(c: &mut Comparison) -> Chain {
    let length = if c.rng.once_in(20) { 9 } else { c.rng.index(9) };
    let mut chain = c.chains.good(&mut c.rng, length);
    if c.rng.once_in(5) {
        chain.damage(&mut c.rng);
        while c.rng.once_in(4) {
            chain.damage(&mut c.rng);
        }
    }
    chain
}

/// On the chain's start (its end, going back), over the area, led to a face or beside a half; one in eight damaged.
fn point(c: &mut Comparison, chain: &Chain, back: bool) -> PointRow {
    let rng = &mut c.rng;
    let steps = steps(&chain.numbers()).expect("whole rows");
    let walkable = paper::chain::chain_faults(chain.profile, &steps).is_ok();
    let position = match rng.below(6) {
        0 | 1 if walkable && back => points::led_back(rng, chain, &steps),
        0 | 1 if walkable => points::led_along(rng, chain, &steps),
        2 => points::at_a_face(rng),
        _ => points::position(rng),
    };
    let place = if back { chain.end } else { chain.begin };
    let mut point = points::point(rng, place, position);
    if rng.once_in(8) {
        points::damage(rng, &mut point);
    }
    point
}
