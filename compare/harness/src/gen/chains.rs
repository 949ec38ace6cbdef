//! Chains as rows of 13 numbers.

use super::numbers::{self, damaged, within, ROTATION, SCALE, SHIFT, VELOCITY};
use crate::rng::Rng;

pub type Row = [i64; 13];

/// Rotations whose product with 4.84813681110 lies nearest to a half: there alone a slightly other
/// constant shows.
pub struct Rotations {
    hard: Vec<i64>,
}

impl Default for Rotations {
    fn default() -> Rotations {
        const E11: i64 = 100_000_000_000;
        let from_half = |r: i64| ((r * 484_813_681_110) % E11 - E11 / 2).abs();
        let mut all: Vec<i64> = (1..=ROTATION.1).collect();
        all.sort_unstable_by_key(|&r| from_half(r));
        all.truncate(24);
        Rotations { hard: all }
    }
}

/// Rotations and scales whose second rounding is of an exact half: 13201 is 64000 units of 10^-11 radian, and
/// times 1.0000078125 that is 64000.5.
const SCALED_HALVES: &[(i64, i64)] = &[
    (13_201, 781_250),
    (25_783, 400_000),
    (41_253, 250_000),
    (82_506, 125_000),
    (112_801, 640_000),
    (116_024, 800_000),
    (145_030, 640_000),
    (175_325, 1_000_000),
    (181_513, 625_000),
    (237_617, 390_625),
];

#[derive(Default)]
pub struct Chains {
    rotations: Rotations,
}

impl Chains {
    /// A chain that nothing is wrong with, and the datum and epoch where it begins and ends. One in four is of 2009.
    pub fn good(&self, rng: &mut Rng, steps: usize) -> Chain {
        let profile = if rng.once_in(4) { 2009 } else { 2021 };
        self.good_of(rng, profile, steps)
    }

    pub fn good_of(&self, rng: &mut Rng, profile: i64, steps: usize) -> Chain {
        let palettes: &[&str] = if profile == 2009 {
            &["TB", "TB", "B", "T"]
        } else {
            &["TVBF", "TVBF", "TV", "B", "BF", "F", "T", "V"]
        };
        let palette = rng.pick(palettes);
        let begin = if palette.contains('F') && rng.below(4) != 0 {
            [rng.between(5, 9), numbers::epoch(rng)]
        } else {
            numbers::realization_of(rng, profile)
        };
        self.good_from(rng, profile, palette, begin, steps)
    }

    /// A good chain that begins where the other ends, of its profile.
    pub fn good_after(&self, rng: &mut Rng, other: &Chain, steps: usize) -> Chain {
        let palette = if other.profile == 2009 { "TB" } else { "TVBF" };
        self.good_from(rng, other.profile, palette, other.end, steps)
    }

    fn good_from(&self, rng: &mut Rng, profile: i64, palette: &str, begin: [i64; 2], steps: usize) -> Chain {
        let mut chain = Chain { profile, rows: Vec::new(), begin, end: begin };
        for _ in 0..steps {
            let kind = possible(rng.pick(palette.as_bytes()), chain.end);
            let mut row = self.row(rng, kind, chain.end);
            if profile == 2009 {
                [row[4], row[5]] = numbers::realization_of(rng, profile);
            }
            chain.end = [row[4], row[5]];
            chain.rows.push(row);
        }
        chain
    }

    /// A step of the kind from that datum and epoch. Places that the kind doesn't use hold anything.
    pub fn row(&self, rng: &mut Rng, kind: u8, from: [i64; 2]) -> Row {
        let mut row: Row = std::array::from_fn(|_| rng.word() as i64);
        row[0] = i64::from(kind);
        [row[2], row[3]] = from;
        [row[4], row[5]] = match kind {
            b'V' => [from[0], numbers::epoch(rng)],
            b'F' => [10, from[1]],
            _ if rng.once_in(3) => [rng.between(5, 9), numbers::epoch(rng)],
            _ => numbers::realization(rng),
        };
        match kind {
            b'T' => three(rng, &mut row[6..9], SHIFT),
            b'V' => three(rng, &mut row[6..9], VELOCITY),
            b'B' => self.bursa_wolf(rng, &mut row),
            _ => {}
        }
        row
    }

    fn bursa_wolf(&self, rng: &mut Rng, row: &mut Row) {
        row[1] = i64::from(rng.pick(b"PC"));
        let small = rng.once_in(3);
        three(rng, &mut row[6..9], if small { (-20, 20) } else { SHIFT });
        for r in &mut row[9..12] {
            *r = match rng.below(4) {
                0 => rng.pick(&self.rotations.hard) * rng.pick(&[-1, 1]),
                1 if small => 0,
                _ => within(rng, ROTATION.0, ROTATION.1),
            };
        }
        row[12] = if small { rng.between(-30, 30) } else { within(rng, SCALE.0, SCALE.1) };
        if rng.once_in(12) {
            let (r, s) = rng.pick(SCALED_HALVES);
            let axis = 9 + rng.index(3);
            (row[axis], row[12]) = (r * rng.pick(&[-1, 1]), s * rng.pick(&[-1, 1]));
        }
    }
}

fn three(rng: &mut Rng, places: &mut [i64], (low, high): (i64, i64)) {
    for place in places {
        *place = within(rng, low, high);
    }
}

/// The kind, or one in its place where its rule could not hold.
fn possible(kind: u8, [datum, _]: [i64; 2]) -> u8 {
    match kind {
        b'V' if datum <= 2 => b'T',
        b'F' if !(5..=9).contains(&datum) => b'B',
        _ => kind,
    }
}

#[derive(Clone, Debug)]
pub struct Chain {
    /// 2009 or 2021, where it is good.
    pub profile: i64,
    pub rows: Vec<Row>,
    pub begin: [i64; 2],
    pub end: [i64; 2],
}

impl Chain {
    pub fn numbers(&self) -> Vec<i64> {
        self.rows.concat()
    }

    pub fn count(&self, kinds: &str) -> i64 {
        let counted = |row: &&Row| kinds.bytes().any(|kind| i64::from(kind) == row[0]);
        self.rows.iter().filter(counted).count() as i64
    }

    /// One number or one rule of one step broken, or another year. An empty chain has the year alone.
    pub fn damage(&mut self, rng: &mut Rng) {
        if rng.once_in(8) {
            let years =
                [2009, 2021, 2008, 2010, 2020, 2022, 0, -2009, 9, 2009 + (1 << 32), i64::MIN, i64::MAX];
            self.profile = rng.pick(&years);
            return;
        }
        if self.rows.is_empty() {
            return;
        }
        let place = rng.index(self.rows.len());
        let row = &mut self.rows[place];
        match rng.below(10) {
            0 => row[0] = rng.pick(&[0, 32, 80, 83, 116, 98, 84 + 256, -84, i64::MAX, i64::MIN]),
            1 => row[1] = rng.pick(&[0, 84, 112, 99, 80 + 256, 67 - 256, -80, i64::MIN]),
            2 => row[2 + 2 * rng.index(2)] = damaged(rng, 1, 10),
            3 => row[3 + 2 * rng.index(2)] = damaged(rng, numbers::EPOCH.0, numbers::EPOCH.1),
            4 => row[2 + rng.index(4)] = rng.pick(&[0, 1, 2, 3, 9, 10, 2_000_000]),
            5 => row[3 + 2 * rng.index(2)] += rng.pick(&[-1, 1]),
            6 => row[2 + 2 * rng.index(2)] = rng.between(1, 10),
            _ => damage_number(rng, row),
        }
    }
}

/// Every number is tried out of its range, and those that the kind doesn't use as well.
fn damage_number(rng: &mut Rng, row: &mut Row) {
    let place = 6 + rng.index(7);
    let (low, high) = match (row[0], place) {
        (86, 6..=8) => VELOCITY,
        (_, 6..=8) => SHIFT,
        (_, 9..=11) => ROTATION,
        _ => SCALE,
    };
    row[place] = damaged(rng, low, high);
}
