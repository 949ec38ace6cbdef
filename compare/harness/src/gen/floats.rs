//! Floats for the rounding, and places.

use crate::rng::Rng;

pub fn places(rng: &mut Rng) -> u32 {
    match rng.below(16) {
        0 => rng.pick(&[6, 7, 17, 18, 19, 22, 31, 32, 64, 255, 256, 65_536, u32::MAX - 1, u32::MAX]),
        1 => rng.word() as u32,
        _ => rng.below(6) as u32,
    }
}

pub fn float(rng: &mut Rng, places: u32) -> f64 {
    let size = match rng.below(12) {
        0 => f64::from_bits(rng.word()),
        1 => special(rng),
        2 | 3 => neighbour(rng, exact_tie, places),
        4 | 5 => neighbour(rng, near_tie, places),
        6 => f64::from_bits(rng.below(1 << 53)),
        7 => f64::from_bits((rng.between(1023 - 75, 1023 + 26) as u64) << 52 | rng.below(1 << 52)),
        8 => neighbour(rng, |_, _| 10_000_000.0, places),
        9 => rng.small(20_000_000) as f64,
        _ => rng.below(1 << 60) as f64 / (1_u64 << 60) as f64 * 10_000_000.0,
    };
    if rng.once_in(2) {
        -size
    } else {
        size
    }
}

fn special(rng: &mut Rng) -> f64 {
    let nan = f64::from_bits(0x7ff0_0000_0000_0001 | rng.below(1 << 52));
    rng.pick(&[
        0.0,
        f64::NAN,
        nan,
        f64::INFINITY,
        f64::MAX,
        f64::MIN_POSITIVE,
        f64::from_bits(1),
        f64::from_bits(0x000f_ffff_ffff_ffff),
        10_000_000.0,
        0.5,
        0.000005,
        0.49999999999999994,
        9_007_199_254_740_992.0,
        9_223_372_036_854_775_808.0,
    ])
}

/// An odd number over 2^(places + 1) is a half at that many places.
fn exact_tie(rng: &mut Rng, places: u32) -> f64 {
    let binary = places.min(5) + 1;
    let most = 10_000_000 << binary;
    let odd = rng.small(most) | 1;
    odd as f64 / f64::from(1_u32 << binary)
}

/// The f64 nearest a decimal half, which lies a little above or below it.
fn near_tie(rng: &mut Rng, places: u32) -> f64 {
    let power = 10_i64.pow(places.min(5));
    let whole = rng.small(10_000_000 * power);
    (10 * whole + 5) as f64 / (10 * power) as f64
}

/// What the maker gives, or an f64 one or two beside it.
fn neighbour(rng: &mut Rng, make: fn(&mut Rng, u32) -> f64, places: u32) -> f64 {
    let x = make(rng, places);
    f64::from_bits(x.to_bits().wrapping_add_signed(rng.between(-2, 2)))
}
