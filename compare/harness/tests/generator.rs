//! The generator makes what it says it makes.

use harness::gen::chains::Chains;
use harness::gen::{full, geodetic, halves, plans, points, sheets};
use harness::rng::Rng;
use paper::ellipsoid::by_code;
use paper::geodetic::{quantities, SECONDS};
use paper::numbers::steps;
use std::collections::BTreeSet;

#[test]
fn good_chains_have_no_faults_and_end_where_they_say() {
    let (mut rng, chains) = (Rng::new(1), Chains::default());
    for count in 0..2000 {
        let chain = chains.good(&mut rng, count % 9);
        let steps = steps(&chain.numbers()).expect("whole rows");
        assert_eq!(paper::chain::chain_faults(chain.profile, &steps).err(), None);
        if let (Some(first), Some(last)) = (steps.first(), steps.last()) {
            assert_eq!([first.before.datum, first.before.epoch], chain.begin);
            assert_eq!([last.after.datum, last.after.epoch], chain.end);
        }
    }
}

#[test]
fn full_inputs_go_through() {
    let (mut rng, chains) = (Rng::new(2), Chains::default());
    for kinds in ["BBBBBBBB", "TTTTTTTT", "VVVVVVVV", "FBFBFBFB", "B"] {
        let input = full::sheet(&mut rng, &chains, kinds, 65_536);
        let output = paper::sheet::sheet(&input);
        assert!(input.len() > 65_400 && !output.windows(2).any(|pair| pair == b"R\t"), "{kinds}");
    }
    let output = paper::plan::plan(&full::plan(&mut rng, 65_536));
    assert!(!output.windows(2).any(|pair| pair == b"R\t"));
    let refusals = full::refusals(&mut rng, &chains, 65_536);
    let output = paper::sheet::sheet(&refusals);
    let numbers: BTreeSet<&[u8]> =
        output.split(|&b| b == b'\n').filter_map(|line| line.split(|&b| b == b'\t').nth(2)).collect();
    let expected: [&[u8]; 5] = [b"10", b"2", b"21", b"3", b"9"];
    assert_eq!(numbers, BTreeSet::from(expected));
    let output = paper::sheet::sheet(&full::malformed(&mut rng, &chains, 65_536));
    let numbers: BTreeSet<&[u8]> =
        output.split(|&b| b == b'\n').filter_map(|line| line.split(|&b| b == b'\t').nth(2)).collect();
    let expected: [&[u8]; 5] = [b"18", b"19", b"20", b"21", b"22"];
    assert_eq!(numbers, BTreeSet::from(expected));
}

/// Beside a half, one unit of the coordinate moved changes some part of g for most positions.
#[test]
fn halves_are_near() {
    let (mut rng, chains) = (Rng::new(3), Chains::default());
    let mut changed = 0;
    for _ in 0..1000 {
        let row = chains.row(&mut rng, b'B', [5, 2_000_000]);
        let step = steps(&row).expect("one row")[0];
        let at = points::position(&mut rng);
        let at = halves::beside(&mut rng, &row, at);
        let gain = |offset: i64| paper::step::gain(&step, at.map(|value| value + offset));
        changed += i32::from(gain(-2) != gain(2));
    }
    assert!(changed > 300, "{changed}");
}

#[test]
fn a_seed_gives_the_same_texts() {
    let chains = Chains::default();
    let texts = |seed: u64| {
        let mut rng = Rng::new(seed);
        (0..50)
            .map(|_| [sheets::sheet(&mut rng, &chains), plans::plan(&mut rng)].concat())
            .collect::<Vec<_>>()
    };
    assert_eq!(texts(4), texts(4));
    assert_ne!(texts(4), texts(5));
}

/// A few millionths of a unit from a half, for most positions.
#[test]
fn angles_are_led_to_halves() {
    let mut rng = Rng::new(6);
    let mut near = 0;
    for _ in 0..200 {
        let (code, at) = geodetic::placed(&mut rng);
        let from = geodetic::position(code, at);
        let q = quantities(by_code(code).expect("a code"), geodetic::beside_a_half(&mut rng, code, from));
        let off = |radians: f64| ((radians * SECONDS * 100000.0).fract() - 0.5).abs();
        near += i32::from(off(q.phi) < 0.00001 || off(q.w) < 0.00001);
    }
    assert!(near > 120, "{near}");
}
