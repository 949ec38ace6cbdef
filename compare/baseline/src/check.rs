//! Ranges and faults of steps and points.

pub const RANGE: u8 = 2;
pub const DATUM_EPOCH: u8 = 3;
pub const KIND_RULE: u8 = 4;
pub const JOIN: u8 = 5;
pub const NINTH: u8 = 6;
pub const ORDER: u8 = 7;
pub const EARLIER: u8 = 8;
pub const START: u8 = 9;
pub const OUTSIDE: u8 = 10;
pub const LEFT: u8 = 11;
pub const ANGLE: u8 = 12;
pub const APART: u8 = 13;
pub const IDS: u8 = 16;
pub const SAME_ISSUE: u8 = 17;
pub const LENGTH: u8 = 18;
pub const LETTER: u8 = 19;
pub const COUNT: u8 = 20;
pub const ID: u8 = 21;
pub const PLAIN: u8 = 22;
pub const PROJECTED: u8 = 23;
pub const NODES: u8 = 24;
pub const PROFILE: u8 = 25;
pub const ROW: u8 = 26;
pub const BUFFER: u8 = 27;
pub const LIMIT: u8 = 28;
pub const ENDED: u8 = 29;
pub const LINES: u8 = 30;

/// A refused line: the number and, for its form, the byte where the offending field begins.
#[derive(Clone, Copy, PartialEq, Eq, Debug)]
pub struct Fault {
    pub number: u8,
    pub place: u8,
}

impl From<u8> for Fault {
    #[inline]
    fn from(number: u8) -> Fault {
        Fault { number, place: 0 }
    }
}

#[derive(Clone, Copy, PartialEq, Eq, Debug)]
pub struct Place {
    pub datum: i64,
    pub epoch: i64,
}

#[derive(Clone, Copy, Debug)]
pub struct Point {
    pub issue: i64,
    pub order: i64,
    pub place: Place,
    pub xyz: [i64; 3],
}

#[derive(Clone, Copy, Debug)]
pub enum Kind {
    Shift,
    Velocity,
    Rotated { sign: i64 },
    Frame,
    Unknown,
}

/// The seven numbers as a line or a row gives them; a kind uses as many as it has.
#[derive(Clone, Copy, Debug)]
pub struct Step {
    pub kind: Kind,
    pub before: Place,
    pub after: Place,
    pub numbers: [i64; 7],
}

#[derive(Clone, Copy, PartialEq, Eq, Debug, Default)]
pub enum Profile {
    Y2009,
    #[default]
    Y2021,
}

impl Profile {
    pub fn of(year: i64) -> Result<Profile, u8> {
        match year {
            2009 => Ok(Profile::Y2009),
            2021 => Ok(Profile::Y2021),
            _ => Err(RANGE),
        }
    }

    pub fn year(self) -> i64 {
        if self == Profile::Y2009 {
            2009
        } else {
            2021
        }
    }

    /// For a datum in range: 1, 2, 3, 4, 5 and 7 in 2009.
    #[inline]
    pub fn has(self, datum: i64) -> bool {
        self == Profile::Y2021 || (1 << datum) & 0b1011_1110 != 0
    }
}

pub fn within(values: &[i64], size: i64) -> bool {
    values.iter().all(|v| (-size..=size).contains(v))
}

fn place_in_range(place: Place) -> bool {
    (1..=10).contains(&place.datum) && (place.epoch == 0 || (1_980_000..=2_100_000).contains(&place.epoch))
}

fn agrees(place: Place) -> bool {
    (place.datum < 3) == (place.epoch == 0)
}

/// 2, 3, or 0.
#[inline]
pub fn point(point: &Point) -> u8 {
    if !(1..=65_535).contains(&point.issue)
        || !(1..=4).contains(&point.order)
        || !place_in_range(point.place)
        || !within(&point.xyz, 640_000_000_000)
    {
        RANGE
    } else if !agrees(point.place) {
        DATUM_EPOCH
    } else {
        0
    }
}

/// 2, 3, 25, 4, or 0.
pub fn step(profile: Profile, step: &Step) -> u8 {
    let n = &step.numbers;
    let good = match step.kind {
        Kind::Shift => within(&n[..3], 100_000_000),
        Kind::Velocity => within(&n[..3], 10_000),
        Kind::Rotated { .. } => {
            within(&n[..3], 100_000_000) && within(&n[3..6], 1_000_000) && within(&n[6..], 2_000_000)
        }
        Kind::Frame => true,
        Kind::Unknown => false,
    };
    if !good || !place_in_range(step.before) || !place_in_range(step.after) {
        RANGE
    } else if !agrees(step.before) || !agrees(step.after) {
        DATUM_EPOCH
    } else if !has_step(profile, step) {
        PROFILE
    } else if !obeys(step) {
        KIND_RULE
    } else {
        0
    }
}

fn has_step(profile: Profile, step: &Step) -> bool {
    let timed = matches!(step.kind, Kind::Velocity | Kind::Frame);
    profile.has(step.before.datum) && profile.has(step.after.datum) && !(timed && profile == Profile::Y2009)
}

fn obeys(step: &Step) -> bool {
    let (from, to) = (step.before, step.after);
    match step.kind {
        Kind::Velocity => from.datum == to.datum && from.epoch != 0 && to.epoch != 0,
        Kind::Frame => (5..=9).contains(&from.datum) && to.datum == 10 && from.epoch == to.epoch,
        _ => true,
    }
}

#[inline]
pub fn in_area([x, y, z]: [i64; 3]) -> bool {
    (-330_000_000_000..=-90_000_000_000).contains(&x)
        && (540_000_000_000..=640_000_000_000).contains(&y)
        && (0..=90_000_000_000).contains(&z)
}
