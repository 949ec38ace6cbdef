//! The product through its C interface. Each call watches the bytes around and in what it lends: on a
//! refusal nothing may be written, and never anything past the lent slice.

use crate::subject::{Answer, Asked, Day, Fed, Lot, State, Subject, STRANGE, UNWRITTEN, WROTE};
use paper::numbers::PointRow;
#[cfg(feature = "standin")]
use standin as _;

mod c {
    extern "C" {
        pub fn swivelcrane_forward(
            profile: i64,
            chain: *const i64,
            chain_len: usize,
            point: *const i64,
            point_len: usize,
            out: *mut i64,
            out_len: usize,
        ) -> i64;
        pub fn swivelcrane_inverse(
            profile: i64,
            chain: *const i64,
            chain_len: usize,
            point: *const i64,
            point_len: usize,
            out: *mut i64,
            out_len: usize,
        ) -> i64;
        pub fn swivelcrane_join(
            first_profile: i64,
            first: *const i64,
            first_len: usize,
            second_profile: i64,
            second: *const i64,
            second_len: usize,
            out: *mut i64,
            out_len: usize,
        ) -> i64;
        pub fn swivelcrane_row(
            profile: i64,
            chain: *const i64,
            chain_len: usize,
            direction: i64,
            points: *const i64,
            points_len: usize,
            answers: *mut i64,
            answers_len: usize,
        ) -> i64;
        pub fn swivelcrane_cartesian(
            ellipsoid: i64,
            latitude: i64,
            longitude: i64,
            height: i64,
            out: *mut f64,
            out_len: usize,
        ) -> i64;
        pub fn swivelcrane_cartesian_units(
            ellipsoid: i64,
            latitude: i64,
            longitude: i64,
            height: i64,
            out: *mut i64,
            out_len: usize,
        ) -> i64;
        pub fn swivelcrane_geodetic(
            ellipsoid: i64,
            x: i64,
            y: i64,
            z: i64,
            out: *mut i64,
            out_len: usize,
        ) -> i64;
        pub fn swivelcrane_cassini(
            ellipsoid: i64,
            origin_latitude: i64,
            origin_longitude: i64,
            false_easting: i64,
            false_northing: i64,
            latitude: i64,
            longitude: i64,
            out: *mut f64,
            out_len: usize,
        ) -> i64;
        pub fn swivelcrane_cassini_millimetres(
            ellipsoid: i64,
            origin_latitude: i64,
            origin_longitude: i64,
            false_easting: i64,
            false_northing: i64,
            latitude: i64,
            longitude: i64,
            out: *mut i64,
            out_len: usize,
        ) -> i64;
        pub fn swivelcrane_rso_forward(
            parameters: *const i64,
            parameters_len: usize,
            latitude: i64,
            longitude: i64,
            out: *mut f64,
            out_len: usize,
        ) -> i64;
        pub fn swivelcrane_rso_reverse(
            parameters: *const i64,
            parameters_len: usize,
            easting: f64,
            northing: f64,
            out: *mut i64,
            out_len: usize,
        ) -> i64;
        pub fn swivelcrane_round(x: f64, places: u32, out: *mut i64, out_len: usize) -> i64;
        pub fn swivelcrane_later(
            first: *const u8,
            first_len: usize,
            second: *const u8,
            second_len: usize,
            which: *mut i64,
            which_len: usize,
        ) -> i64;
        pub fn swivelcrane_later_fault(
            first: *const u8,
            first_len: usize,
            second: *const u8,
            second_len: usize,
            out: *mut i64,
            out_len: usize,
        ) -> i64;
        pub fn swivelcrane_feed(
            numbers: *mut i64,
            numbers_len: usize,
            line: *mut u8,
            line_len: usize,
            fragment: *const u8,
            fragment_len: usize,
            out: *mut u8,
            out_len: usize,
            told: *mut i64,
            told_len: usize,
        ) -> i64;
        pub fn swivelcrane_finish(
            numbers: *mut i64,
            numbers_len: usize,
            line: *mut u8,
            line_len: usize,
            out: *mut u8,
            out_len: usize,
        ) -> i64;
        pub fn swivelcrane_lot_plan(
            chain: *const u8,
            chain_len: usize,
            point: *const u8,
            point_len: usize,
            ellipsoid: i64,
            origin_latitude: i64,
            origin_longitude: i64,
            false_easting: i64,
            false_northing: i64,
            out: *mut u8,
            out_len: usize,
        ) -> i64;
        pub fn swivelcrane_grid_velocity(
            grid: *const u8,
            grid_len: usize,
            latitude: i64,
            longitude: i64,
            datum: i64,
            epoch_before: i64,
            epoch_after: i64,
            out: *mut i64,
            out_len: usize,
        ) -> i64;
        pub fn swivelcrane_grid_fault(grid: *const u8, grid_len: usize, out: *mut i64, out_len: usize)
            -> i64;
        pub fn swivelcrane_sheet(input: *const u8, input_len: usize, out: *mut u8, out_len: usize) -> i64;
        pub fn swivelcrane_plan(input: *const u8, input_len: usize, out: *mut u8, out_len: usize) -> i64;
    }
}

pub fn forward(profile: i64, chain: &[i64], point: &[i64], out: &mut [i64]) -> i64 {
    // Safety, here and below: pointers and lengths of live slices.
    unsafe {
        c::swivelcrane_forward(
            profile,
            chain.as_ptr(),
            chain.len(),
            point.as_ptr(),
            point.len(),
            out.as_mut_ptr(),
            out.len(),
        )
    }
}

pub fn inverse(profile: i64, chain: &[i64], point: &[i64], out: &mut [i64]) -> i64 {
    unsafe {
        c::swivelcrane_inverse(
            profile,
            chain.as_ptr(),
            chain.len(),
            point.as_ptr(),
            point.len(),
            out.as_mut_ptr(),
            out.len(),
        )
    }
}

pub fn join([one, two]: [i64; 2], first: &[i64], second: &[i64], out: &mut [i64]) -> i64 {
    unsafe {
        c::swivelcrane_join(
            one,
            first.as_ptr(),
            first.len(),
            two,
            second.as_ptr(),
            second.len(),
            out.as_mut_ptr(),
            out.len(),
        )
    }
}

pub fn row(profile: i64, chain: &[i64], direction: i64, points: &[i64], answers: &mut [i64]) -> i64 {
    unsafe {
        c::swivelcrane_row(
            profile,
            chain.as_ptr(),
            chain.len(),
            direction,
            points.as_ptr(),
            points.len(),
            answers.as_mut_ptr(),
            answers.len(),
        )
    }
}

pub fn cartesian(n: &[i64; 4], out: &mut [f64]) -> i64 {
    unsafe { c::swivelcrane_cartesian(n[0], n[1], n[2], n[3], out.as_mut_ptr(), out.len()) }
}

pub fn cartesian_units(n: &[i64; 4], out: &mut [i64]) -> i64 {
    unsafe { c::swivelcrane_cartesian_units(n[0], n[1], n[2], n[3], out.as_mut_ptr(), out.len()) }
}

pub fn geodetic(n: &[i64; 4], out: &mut [i64]) -> i64 {
    unsafe { c::swivelcrane_geodetic(n[0], n[1], n[2], n[3], out.as_mut_ptr(), out.len()) }
}

pub fn cassini(n: &[i64; 7], out: &mut [f64]) -> i64 {
    let [e, oa, ob, fe, fn_, a, b] = *n;
    unsafe { c::swivelcrane_cassini(e, oa, ob, fe, fn_, a, b, out.as_mut_ptr(), out.len()) }
}

pub fn cassini_millimetres(n: &[i64; 7], out: &mut [i64]) -> i64 {
    let [e, oa, ob, fe, fn_, a, b] = *n;
    unsafe { c::swivelcrane_cassini_millimetres(e, oa, ob, fe, fn_, a, b, out.as_mut_ptr(), out.len()) }
}

pub fn rso_forward(parameters: &[i64], [latitude, longitude]: [i64; 2], out: &mut [f64]) -> i64 {
    let (from, count) = (parameters.as_ptr(), parameters.len());
    unsafe { c::swivelcrane_rso_forward(from, count, latitude, longitude, out.as_mut_ptr(), out.len()) }
}

pub fn rso_reverse(parameters: &[i64], [easting, northing]: [f64; 2], out: &mut [i64]) -> i64 {
    let (from, count) = (parameters.as_ptr(), parameters.len());
    unsafe { c::swivelcrane_rso_reverse(from, count, easting, northing, out.as_mut_ptr(), out.len()) }
}

pub fn round(x: f64, places: u32, out: &mut [i64]) -> i64 {
    unsafe { c::swivelcrane_round(x, places, out.as_mut_ptr(), out.len()) }
}

pub fn later(first: &[u8], second: &[u8], which: &mut [i64]) -> i64 {
    unsafe {
        c::swivelcrane_later(
            first.as_ptr(),
            first.len(),
            second.as_ptr(),
            second.len(),
            which.as_mut_ptr(),
            which.len(),
        )
    }
}

pub fn later_fault(first: &[u8], second: &[u8], out: &mut [i64]) -> i64 {
    unsafe {
        c::swivelcrane_later_fault(
            first.as_ptr(),
            first.len(),
            second.as_ptr(),
            second.len(),
            out.as_mut_ptr(),
            out.len(),
        )
    }
}

pub fn grid_velocity(grid: &[u8], a: &Asked, out: &mut [i64]) -> i64 {
    unsafe {
        c::swivelcrane_grid_velocity(
            grid.as_ptr(),
            grid.len(),
            a.latitude,
            a.longitude,
            a.datum,
            a.before,
            a.after,
            out.as_mut_ptr(),
            out.len(),
        )
    }
}

pub fn feed(numbers: &mut [i64], line: &mut [u8], fragment: &[u8], out: &mut [u8], told: &mut [i64]) -> i64 {
    unsafe {
        c::swivelcrane_feed(
            numbers.as_mut_ptr(),
            numbers.len(),
            line.as_mut_ptr(),
            line.len(),
            fragment.as_ptr(),
            fragment.len(),
            out.as_mut_ptr(),
            out.len(),
            told.as_mut_ptr(),
            told.len(),
        )
    }
}

pub fn finish(numbers: &mut [i64], line: &mut [u8], out: &mut [u8]) -> i64 {
    unsafe {
        c::swivelcrane_finish(
            numbers.as_mut_ptr(),
            numbers.len(),
            line.as_mut_ptr(),
            line.len(),
            out.as_mut_ptr(),
            out.len(),
        )
    }
}

pub fn grid_fault(grid: &[u8], out: &mut [i64]) -> i64 {
    unsafe { c::swivelcrane_grid_fault(grid.as_ptr(), grid.len(), out.as_mut_ptr(), out.len()) }
}

pub fn lot_plan(lot: &Lot, out: &mut [u8]) -> i64 {
    let [ellipsoid, latitude, longitude, easting, northing] = lot.origin;
    unsafe {
        c::swivelcrane_lot_plan(
            lot.text.as_ptr(),
            lot.text.len(),
            lot.line.as_ptr(),
            lot.line.len(),
            ellipsoid,
            latitude,
            longitude,
            easting,
            northing,
            out.as_mut_ptr(),
            out.len(),
        )
    }
}

pub fn sheet(input: &[u8], out: &mut [u8]) -> i64 {
    unsafe { c::swivelcrane_sheet(input.as_ptr(), input.len(), out.as_mut_ptr(), out.len()) }
}

pub fn plan(input: &[u8], out: &mut [u8]) -> i64 {
    unsafe { c::swivelcrane_plan(input.as_ptr(), input.len(), out.as_mut_ptr(), out.len()) }
}

/// The room that a sheet or plan asks for.
pub fn room(input: &[u8]) -> usize {
    13 * input.len().min(65_536) + 9
}

/// The numbers of eight steps: the room for a joined chain.
pub const JOINED: usize = 104;

/// Room for the answer of one line.
pub const ANSWER: usize = 200;

pub const MARK: i64 = 0x5a5a_a5a5_1234_4321;
pub const FLOAT_MARK: f64 = -1.25e300;

/// Lends N places in the midst of twenty marked ones.
fn lend<T: Copy + PartialEq, const N: usize>(mark: T, call: impl FnOnce(&mut [T]) -> i64) -> Answer<[T; N]> {
    let mut places = [mark; 20];
    let number = call(&mut places[1..=N]);
    let touched = |part: &[T]| part.iter().any(|place| *place != mark);
    if touched(&places[..1]) || touched(&places[N + 1..]) {
        return Err(WROTE);
    }
    match number {
        0 => Ok(std::array::from_fn(|i| places[1 + i])),
        _ if touched(&places) => Err(WROTE),
        2..=30 | 255 => Err(number as u8),
        _ => Err(STRANGE),
    }
}

/// The output, or a text that no program gives.
fn print(input: &[u8], call: fn(&[u8], &mut [u8]) -> i64) -> Vec<u8> {
    let room = room(input);
    let mut out = vec![0xa5; room + 16];
    let length = call(input, &mut out[..room]);
    if out[room..].iter().any(|byte| *byte != 0xa5) {
        return b"wrote past the end of the lent output".to_vec();
    }
    match usize::try_from(length) {
        Ok(length) if length <= room => {
            out.truncate(length);
            out
        }
        _ => format!("returned {length}").into_bytes(),
    }
}

pub struct Product;

impl Subject for Product {
    fn name(&self) -> &'static str {
        "product"
    }
    fn forward(&self, profile: i64, chain: &[i64], point: &PointRow) -> Answer<PointRow> {
        lend(MARK, |out| forward(profile, chain, point, out))
    }
    fn inverse(&self, profile: i64, chain: &[i64], point: &PointRow) -> Answer<PointRow> {
        lend(MARK, |out| inverse(profile, chain, point, out))
    }
    fn join(&self, profiles: [i64; 2], first: &[i64], second: &[i64]) -> Answer<Vec<i64>> {
        let mut places = [MARK; JOINED + 2];
        let answer = join(profiles, first, second, &mut places[1..=JOINED]);
        let written = usize::try_from(answer).unwrap_or(0);
        if places[0] != MARK || written > JOINED || places[1 + written..].iter().any(|place| *place != MARK) {
            return Err(WROTE);
        }
        match answer {
            0.. => Ok(places[1..=written].to_vec()),
            -255 | -25..=-2 => Err(-answer as u8),
            _ => Err(STRANGE),
        }
    }
    fn row(&self, day: &Day) -> (i64, Vec<i64>) {
        let mut answers = vec![UNWRITTEN; day.room + 2];
        let lent = &mut answers[1..=day.room];
        let number = row(day.profile, &day.chain, day.direction, &day.points, lent);
        if answers[0] != UNWRITTEN || answers.pop() != Some(UNWRITTEN) {
            return (i64::from(WROTE), answers);
        }
        answers.remove(0);
        (number, answers)
    }
    fn cartesian(&self, n: &[i64; 4]) -> Answer<[f64; 3]> {
        lend(FLOAT_MARK, |out| cartesian(n, out))
    }
    fn cartesian_units(&self, n: &[i64; 4]) -> Answer<[i64; 3]> {
        lend(MARK, |out| cartesian_units(n, out))
    }
    fn geodetic(&self, n: &[i64; 4]) -> Answer<[i64; 3]> {
        lend(MARK, |out| geodetic(n, out))
    }
    fn cassini(&self, n: &[i64; 7]) -> Answer<[f64; 2]> {
        lend(FLOAT_MARK, |out| cassini(n, out))
    }
    fn cassini_millimetres(&self, n: &[i64; 7]) -> Answer<[i64; 2]> {
        lend(MARK, |out| cassini_millimetres(n, out))
    }
    fn rso_forward(&self, parameters: &[i64; 8], latitude: i64, longitude: i64) -> Answer<[f64; 2]> {
        lend(FLOAT_MARK, |out| rso_forward(parameters, [latitude, longitude], out))
    }
    fn rso_reverse(&self, parameters: &[i64; 8], easting: f64, northing: f64) -> Answer<[i64; 2]> {
        lend(MARK, |out| rso_reverse(parameters, [easting, northing], out))
    }
    fn round(&self, x: f64, places: u32) -> Answer<i64> {
        lend(MARK, |out| round(x, places, out)).map(|[whole]| whole)
    }
    fn later(&self, first: &[u8], second: &[u8]) -> Answer<i64> {
        lend(MARK, |which| later(first, second, which)).map(|[which]| which)
    }
    fn later_fault(&self, first: &[u8], second: &[u8]) -> Answer<[i64; 3]> {
        lend(MARK, |out| later_fault(first, second, out))
    }
    fn grid_velocity(&self, grid: &[u8], asked: &Asked) -> Answer<[i64; 16]> {
        lend(MARK, |out| grid_velocity(grid, asked, out))
    }
    fn grid_fault(&self, grid: &[u8]) -> Answer<[i64; 3]> {
        lend(MARK, |out| grid_fault(grid, out))
    }
    fn fed(&self, state: &mut State, fragment: Option<&[u8]>) -> Fed {
        let (mut out, mut told) = ([0xa5; ANSWER + 1], [MARK; 2]);
        let lent = &mut out[..ANSWER];
        let answer = match fragment {
            Some(fragment) => feed(&mut state.numbers, &mut state.line, fragment, lent, &mut told),
            None => finish(&mut state.numbers, &mut state.line, lent),
        };
        let length = usize::try_from(answer).unwrap_or(0);
        if length > ANSWER || out[length..].iter().any(|byte| *byte != 0xa5) {
            return Err(WROTE);
        }
        match (answer, fragment, told) {
            (0.., None, [MARK, MARK]) => Ok((0, Some(out[..length].to_vec()))),
            (0.., Some(_), [taken, 1]) => Ok((taken as usize, Some(out[..length].to_vec()))),
            (0, Some(_), [taken, 0]) => Ok((taken as usize, None)),
            (-255 | -30..=-2, _, [MARK, MARK]) => Err(-answer as u8),
            (..=-1, _, _) => Err(WROTE),
            _ => Err(STRANGE),
        }
    }
    fn lot_plan(&self, lot: &Lot) -> Answer<Vec<u8>> {
        let mut out = vec![0xa5; lot.room + 1];
        let answer = lot_plan(lot, &mut out[..lot.room]);
        let length = usize::try_from(answer).unwrap_or(0);
        if length > lot.room || out[length..].iter().any(|byte| *byte != 0xa5) {
            return Err(WROTE);
        }
        match answer {
            1.. => Ok(out[..length].to_vec()),
            -30..=-2 => Err(-answer as u8),
            _ => Err(STRANGE),
        }
    }
    fn sheet(&self, input: &[u8]) -> Vec<u8> {
        print(input, sheet)
    }
    fn plan(&self, input: &[u8]) -> Vec<u8> {
        print(input, plan)
    }
}
