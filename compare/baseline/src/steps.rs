//! Steps made ready for many points, and the conversion through a chain of them.

use crate::check::{self, Kind, Place, Point, Step, LEFT, OUTSIDE, START};
use crate::round::{quotient, whole_and_quotient};

const E11: i64 = 100_000_000_000;
const E14: i64 = 100_000_000_000_000;

#[derive(Clone, Copy, Debug)]
enum Gain {
    /// T and V: the same at every position.
    Constant([i64; 3]),
    /// B: scaled rotations in 10^-11 radian with the convention's sign.
    Rotated { shift: [i64; 3], r: [i64; 3], s: i64 },
    /// F: the negated translation and scale, both over 10^14.
    Frame { translation: [i64; 3], scale: i64 },
}

#[derive(Clone, Copy, Debug)]
struct Ready {
    gain: Gain,
    before: Place,
    after: Place,
}

#[derive(Clone, Debug, Default)]
pub struct Chain {
    steps: Vec<Ready>,
}

impl Gain {
    fn of(step: &Step) -> Gain {
        let [a, b, c, ..] = step.numbers;
        match step.kind {
            Kind::Velocity => {
                let time = step.after.epoch - step.before.epoch;
                Gain::Constant([a, b, c].map(|v| quotient(v * time, 1000)))
            }
            Kind::Rotated { sign } => {
                let [_, _, _, rx, ry, rz, s] = step.numbers;
                // The scale goes onto the rotations too, after they have been made radians.
                let scaled = |r: i64| quotient(quotient(r * 484_813_681_110, E11) * (E11 + s), E11);
                let r = [rx, ry, rz].map(|r| sign * scaled(r));
                Gain::Rotated { shift: [a, b, c], r, s }
            }
            Kind::Frame => Gain::frame(step.before),
            Kind::Shift | Kind::Unknown => Gain::Constant([a, b, c]),
        }
    }

    fn frame(before: Place) -> Gain {
        let dt = before.epoch - 2_010_000;
        let (t, tv, d, dv) = if before.datum == 9 {
            ([160, 190, 240], [0, 0, -10], -2, 3)
        } else {
            ([70, 120, -2610], [10, 10, -190], 212, 11)
        };
        let translation = [0, 1, 2].map(|i: usize| -(1000 * t[i] + tv[i] * dt) * E11);
        Gain::Frame { translation, scale: -(1000 * d + dv * dt) }
    }

    /// Positions within a metre or two of the area keep every product and sum below 2^63.
    #[inline]
    fn at(&self, [x, y, z]: [i64; 3]) -> [i64; 3] {
        match *self {
            Gain::Constant(g) => g,
            Gain::Rotated { shift: [dx, dy, dz], r: [rx, ry, rz], s } => [
                whole_and_quotient(dx, s * x - rz * y + ry * z, E11),
                whole_and_quotient(dy, rz * x + s * y - rx * z, E11),
                whole_and_quotient(dz, rx * y - ry * x + s * z, E11),
            ],
            Gain::Frame { translation: [tx, ty, tz], scale } => {
                [quotient(tx + scale * x, E14), quotient(ty + scale * y, E14), quotient(tz + scale * z, E14)]
            }
        }
    }
}

impl Chain {
    /// Empty, with room for the eight steps that a chain can have.
    pub fn with_room() -> Chain {
        Chain { steps: Vec::with_capacity(8) }
    }

    pub fn len(&self) -> usize {
        self.steps.len()
    }

    pub fn is_empty(&self) -> bool {
        self.steps.is_empty()
    }

    pub fn joins(&self, step: &Step) -> bool {
        self.steps.last().is_none_or(|last| last.after == step.before)
    }

    /// For a step without faults that joins.
    pub fn push(&mut self, step: &Step) {
        self.steps.push(Ready { gain: Gain::of(step), before: step.before, after: step.after });
    }

    /// For a point without faults of its own; 9, 10, 11 otherwise.
    pub fn forward(&self, mut point: Point) -> Result<Point, u8> {
        if self.steps.first().is_some_and(|first| first.before != point.place) {
            return Err(START);
        }
        if !check::in_area(point.xyz) {
            return Err(OUTSIDE);
        }
        for step in &self.steps {
            let [gx, gy, gz] = step.gain.at(point.xyz);
            let [x, y, z] = point.xyz;
            point.xyz = [x + gx, y + gy, z + gz];
            point.place = step.after;
            if !check::in_area(point.xyz) {
                return Err(LEFT);
            }
        }
        Ok(point)
    }

    pub fn inverse(&self, mut point: Point) -> Result<Point, u8> {
        if self.steps.last().is_some_and(|last| last.after != point.place) {
            return Err(START);
        }
        if !check::in_area(point.xyz) {
            return Err(OUTSIDE);
        }
        for step in self.steps.iter().rev() {
            let [x, y, z] = point.xyz;
            for _ in 0..3 {
                let [gx, gy, gz] = step.gain.at(point.xyz);
                point.xyz = [x - gx, y - gy, z - gz];
            }
            point.place = step.before;
            if !check::in_area(point.xyz) {
                return Err(LEFT);
            }
        }
        Ok(point)
    }
}
