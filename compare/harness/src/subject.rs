//! The programs that are compared, under one trait.

use paper::angle::Origin;
use paper::later::Which;
use paper::numbers::PointRow;
use paper::rso::Parameters;
use paper::stream::{ROOM, STATE};

/// The value or the refusal number; 255 is the wrong length. Floats are compared by their bits.
pub type Answer<T> = Result<T, u8>;

/// Not numbers of the paper: what a call did that no answer allows.
pub const WROTE: u8 = 254;
pub const STRANGE: u8 = 253;

/// What every place of an answer row holds before the call.
pub const UNWRITTEN: i64 = 0x0a5a_5a5a_a5a5_0001;

/// A day's points: what one call takes, and the length of its answer row.
#[derive(Clone, Debug)]
pub struct Day {
    pub profile: i64,
    pub chain: Vec<i64>,
    pub direction: i64,
    pub points: Vec<i64>,
    pub room: usize,
}

/// What a lot plan is made from: the chain's text, the point's line, ellipsoid and origin (latitude, longitude, FE, FN), and the
/// length of the buffer.
#[derive(Clone, Debug)]
pub struct Lot {
    pub text: Vec<u8>,
    pub line: Vec<u8>,
    pub origin: [i64; 5],
    pub room: usize,
}

/// The state of a sheet in fragments, as the caller keeps it.
#[derive(Clone, Debug, PartialEq, Eq)]
pub struct State {
    pub numbers: [i64; STATE],
    pub line: [u8; ROOM],
}

/// The bytes taken and the text of a line answered; or the number.
pub type Fed = Answer<(usize, Option<Vec<u8>>)>;

/// A point, a datum and two epochs, for which a grid gives a velocity step.
#[derive(Clone, Debug)]
pub struct Asked {
    pub latitude: i64,
    pub longitude: i64,
    pub datum: i64,
    pub before: i64,
    pub after: i64,
}

pub trait Subject {
    fn name(&self) -> &'static str;
    fn forward(&self, profile: i64, chain: &[i64], point: &PointRow) -> Answer<PointRow>;
    fn inverse(&self, profile: i64, chain: &[i64], point: &PointRow) -> Answer<PointRow>;
    /// Two chains, each with its profile, made one: the numbers of its steps.
    fn join(&self, profiles: [i64; 2], first: &[i64], second: &[i64]) -> Answer<Vec<i64>>;
    /// The number of the whole call, and the answer row after it.
    fn row(&self, day: &Day) -> (i64, Vec<i64>);
    fn cartesian(&self, numbers: &[i64; 4]) -> Answer<[f64; 3]>;
    fn cartesian_units(&self, numbers: &[i64; 4]) -> Answer<[i64; 3]>;
    /// Code, X, Y, Z to latitude, longitude, height.
    fn geodetic(&self, numbers: &[i64; 4]) -> Answer<[i64; 3]>;
    fn cassini(&self, numbers: &[i64; 7]) -> Answer<[f64; 2]>;
    fn cassini_millimetres(&self, numbers: &[i64; 7]) -> Answer<[i64; 2]>;
    /// Code, centre's latitude and longitude, azimuth, rectified angle, scale, FE, FN.
    fn rso_forward(&self, parameters: &[i64; 8], latitude: i64, longitude: i64) -> Answer<[f64; 2]>;
    fn rso_reverse(&self, parameters: &[i64; 8], easting: f64, northing: f64) -> Answer<[i64; 2]>;
    fn round(&self, x: f64, places: u32) -> Answer<i64>;
    fn later(&self, first: &[u8], second: &[u8]) -> Answer<i64>;
    /// The number, the line (1, 2, or 0 for neither) and the place of its refusal; zeros for none.
    fn later_fault(&self, first: &[u8], second: &[u8]) -> Answer<[i64; 3]>;
    /// A line of the lot plan.
    fn lot_plan(&self, lot: &Lot) -> Answer<Vec<u8>>;
    /// One call with a fragment, or the finish where there is none, on a state that the caller keeps.
    fn fed(&self, state: &mut State, fragment: Option<&[u8]>) -> Fed;
    /// East, north and up at a point of a grid, then the 13 numbers of the V step.
    fn grid_velocity(&self, grid: &[u8], asked: &Asked) -> Answer<[i64; 16]>;
    /// The number, the line from 1 and the place of a grid's refusal; zeros for none.
    fn grid_fault(&self, grid: &[u8]) -> Answer<[i64; 3]>;
    fn sheet(&self, input: &[u8]) -> Vec<u8>;
    fn plan(&self, input: &[u8]) -> Vec<u8>;
}

/// The independent program.
pub struct Paper;

fn origin(n: &[i64; 7]) -> Origin {
    Origin { ellipsoid: n[0], latitude: n[1], longitude: n[2], false_easting: n[3], false_northing: n[4] }
}

impl Subject for Paper {
    fn name(&self) -> &'static str {
        "independent"
    }
    fn forward(&self, profile: i64, chain: &[i64], point: &PointRow) -> Answer<PointRow> {
        paper::numbers::forward(profile, chain, point)
    }
    fn inverse(&self, profile: i64, chain: &[i64], point: &PointRow) -> Answer<PointRow> {
        paper::numbers::inverse(profile, chain, point)
    }
    fn join(&self, [one, two]: [i64; 2], first: &[i64], second: &[i64]) -> Answer<Vec<i64>> {
        paper::numbers::join(one, first, two, second)
    }
    fn row(&self, day: &Day) -> (i64, Vec<i64>) {
        let mut answers = vec![UNWRITTEN; day.room];
        let answer = paper::numbers::row(day.profile, &day.chain, day.direction, &day.points, &mut answers);
        (answer.err().map_or(0, i64::from), answers)
    }
    fn cartesian(&self, n: &[i64; 4]) -> Answer<[f64; 3]> {
        paper::angle::cartesian(n[0], n[1], n[2], n[3])
    }
    fn cartesian_units(&self, n: &[i64; 4]) -> Answer<[i64; 3]> {
        paper::angle::cartesian_units(n[0], n[1], n[2], n[3])
    }
    fn geodetic(&self, n: &[i64; 4]) -> Answer<[i64; 3]> {
        paper::geodetic::geodetic(n[0], [n[1], n[2], n[3]])
    }
    fn cassini(&self, n: &[i64; 7]) -> Answer<[f64; 2]> {
        paper::angle::cassini(&origin(n), n[5], n[6])
    }
    fn cassini_millimetres(&self, n: &[i64; 7]) -> Answer<[i64; 2]> {
        paper::angle::cassini_millimetres(&origin(n), n[5], n[6])
    }
    fn rso_forward(&self, parameters: &[i64; 8], latitude: i64, longitude: i64) -> Answer<[f64; 2]> {
        paper::rso::forward(&Parameters::new(*parameters), latitude, longitude)
    }
    fn rso_reverse(&self, parameters: &[i64; 8], easting: f64, northing: f64) -> Answer<[i64; 2]> {
        paper::rso::reverse(&Parameters::new(*parameters), easting, northing)
    }
    fn round(&self, x: f64, places: u32) -> Answer<i64> {
        paper::decimal::round(x, places)
    }
    fn later(&self, first: &[u8], second: &[u8]) -> Answer<i64> {
        let answer = paper::later::later(first, second);
        answer.map(|which| if which == Which::First { 1 } else { 2 }).map_err(|refused| refused.number)
    }
    fn later_fault(&self, first: &[u8], second: &[u8]) -> Answer<[i64; 3]> {
        let refused = paper::later::later(first, second).err();
        Ok(refused.map_or([0; 3], |r| [i64::from(r.number), r.line, r.place as i64]))
    }
    fn grid_velocity(&self, grid: &[u8], a: &Asked) -> Answer<[i64; 16]> {
        let ([e, n, u], step) =
            paper::grid::velocity(grid, [a.latitude, a.longitude], a.datum, [a.before, a.after])?;
        let row = paper::numbers::step_row(&step);
        Ok(std::array::from_fn(|i| if i < 3 { [e, n, u][i] } else { row[i - 3] }))
    }
    fn grid_fault(&self, grid: &[u8]) -> Answer<[i64; 3]> {
        let refused = paper::grid::read(grid).err();
        Ok(refused.map_or([0; 3], |r| [i64::from(r.number), r.line as i64, r.place as i64]))
    }
    fn fed(&self, state: &mut State, fragment: Option<&[u8]>) -> Fed {
        let State { numbers, line } = state;
        match fragment {
            Some(fragment) => {
                let fed = paper::stream::feed(numbers, line, fragment)?;
                Ok((fed.taken, fed.answer.map(String::into_bytes)))
            }
            None => Ok((0, Some(paper::stream::finish(numbers, line)?.into_bytes()))),
        }
    }
    fn lot_plan(&self, lot: &Lot) -> Answer<Vec<u8>> {
        let [e, a, b, fe, fn_] = lot.origin;
        let origin = origin(&[e, a, b, fe, fn_, 0, 0]);
        paper::lot_plan::lot_plan(&lot.text, &lot.line, &origin, lot.room).map(String::into_bytes)
    }
    fn sheet(&self, input: &[u8]) -> Vec<u8> {
        paper::sheet::sheet(input)
    }
    fn plan(&self, input: &[u8]) -> Vec<u8> {
        paper::plan::plan(input)
    }
}

/// The plain i64 program.
pub struct Baseline;

fn ready(n: &[i64; 7]) -> Answer<baseline::angle::Origin> {
    baseline::angle::Origin::new([n[0], n[1], n[2], n[3], n[4]])
}

impl Subject for Baseline {
    fn name(&self) -> &'static str {
        "baseline"
    }
    fn forward(&self, profile: i64, chain: &[i64], point: &PointRow) -> Answer<PointRow> {
        baseline::numbers::forward(profile, chain, point)
    }
    fn inverse(&self, profile: i64, chain: &[i64], point: &PointRow) -> Answer<PointRow> {
        baseline::numbers::inverse(profile, chain, point)
    }
    fn join(&self, [one, two]: [i64; 2], first: &[i64], second: &[i64]) -> Answer<Vec<i64>> {
        baseline::numbers::join(one, first, two, second)
    }
    fn row(&self, day: &Day) -> (i64, Vec<i64>) {
        let mut answers = vec![UNWRITTEN; day.room];
        let answer =
            baseline::numbers::row(day.profile, &day.chain, day.direction, &day.points, &mut answers);
        (answer.err().map_or(0, i64::from), answers)
    }
    fn cartesian(&self, n: &[i64; 4]) -> Answer<[f64; 3]> {
        baseline::angle::cartesian(n[0], n[1], n[2], n[3])
    }
    fn cartesian_units(&self, n: &[i64; 4]) -> Answer<[i64; 3]> {
        baseline::angle::cartesian_units(n[0], n[1], n[2], n[3])
    }
    fn geodetic(&self, n: &[i64; 4]) -> Answer<[i64; 3]> {
        baseline::geodetic::geodetic(n[0], [n[1], n[2], n[3]])
    }
    fn cassini(&self, n: &[i64; 7]) -> Answer<[f64; 2]> {
        ready(n)?.cassini(n[5], n[6])
    }
    fn cassini_millimetres(&self, n: &[i64; 7]) -> Answer<[i64; 2]> {
        ready(n)?.cassini_millimetres(n[5], n[6])
    }
    fn rso_forward(&self, parameters: &[i64; 8], latitude: i64, longitude: i64) -> Answer<[f64; 2]> {
        baseline::rso::forward(parameters, latitude, longitude)
    }
    fn rso_reverse(&self, parameters: &[i64; 8], easting: f64, northing: f64) -> Answer<[i64; 2]> {
        baseline::rso::reverse(parameters, easting, northing)
    }
    fn round(&self, x: f64, places: u32) -> Answer<i64> {
        baseline::round::decimals(x, places)
    }
    fn later(&self, first: &[u8], second: &[u8]) -> Answer<i64> {
        baseline::later::later(first, second).map_err(|[number, _, _]| number as u8)
    }
    fn later_fault(&self, first: &[u8], second: &[u8]) -> Answer<[i64; 3]> {
        Ok(baseline::later::later(first, second).err().unwrap_or_default())
    }
    fn grid_velocity(&self, grid: &[u8], a: &Asked) -> Answer<[i64; 16]> {
        baseline::grid::velocity(grid, [a.latitude, a.longitude], a.datum, [a.before, a.after])
    }
    fn grid_fault(&self, grid: &[u8]) -> Answer<[i64; 3]> {
        Ok(baseline::grid::read(grid).err().unwrap_or_default())
    }
    fn fed(&self, state: &mut State, fragment: Option<&[u8]>) -> Fed {
        let mut state = baseline::stream::State { numbers: &mut state.numbers, line: &mut state.line };
        let mut out = Vec::new();
        match fragment {
            Some(fragment) => {
                let (taken, answered) = state.feed(fragment, &mut out)?;
                Ok((taken, answered.then_some(out)))
            }
            None => {
                state.finish(&mut out)?;
                Ok((0, Some(out)))
            }
        }
    }
    fn lot_plan(&self, lot: &Lot) -> Answer<Vec<u8>> {
        let mut out = Vec::new();
        baseline::lot_plan::lot_plan(&lot.text, &lot.line, lot.origin, lot.room, &mut out)?;
        Ok(out)
    }
    fn sheet(&self, input: &[u8]) -> Vec<u8> {
        let mut out = Vec::new();
        baseline::sheet::sheet(input, &mut out);
        out
    }
    fn plan(&self, input: &[u8]) -> Vec<u8> {
        let mut out = Vec::new();
        baseline::plan::plan(input, &mut out);
        out
    }
}
