//! The product's C interface over the baseline. With it the comparison, the benchmark and the fuzzer can
//! be built and tried where the product's archive is not at hand. It is never linked beside the product.

use baseline::angle::{self, Origin};
use baseline::rso;
use baseline::stream::State;
use std::slice;

const WRONG_LENGTH: i64 = 255;

/// Writes the answer where there is one and the room is right; the number otherwise.
///
/// # Safety
/// `out` and `out_len` are a live slice, as of every function below.
unsafe fn give<T: Copy, const N: usize>(answer: Result<[T; N], u8>, out: *mut T, out_len: usize) -> i64 {
    if out_len != N {
        return WRONG_LENGTH;
    }
    match answer {
        Ok(values) => {
            slice::from_raw_parts_mut(out, N).copy_from_slice(&values);
            0
        }
        Err(number) => i64::from(number),
    }
}

macro_rules! conversion {
    ($name:ident, $call:path) => {
        /// # Safety
        /// Each pointer and length are a live slice.
        #[no_mangle]
        pub unsafe extern "C" fn $name(
            profile: i64,
            chain: *const i64,
            chain_len: usize,
            point: *const i64,
            point_len: usize,
            out: *mut i64,
            out_len: usize,
        ) -> i64 {
            let chain = slice::from_raw_parts(chain, chain_len);
            let point = slice::from_raw_parts(point, point_len);
            give($call(profile, chain, point), out, out_len)
        }
    };
}

conversion!(swivelcrane_forward, baseline::numbers::forward);
conversion!(swivelcrane_inverse, baseline::numbers::inverse);

/// # Safety
/// Each pointer and length are a live slice.
#[no_mangle]
pub unsafe extern "C" fn swivelcrane_join(
    first_profile: i64,
    first: *const i64,
    first_len: usize,
    second_profile: i64,
    second: *const i64,
    second_len: usize,
    out: *mut i64,
    out_len: usize,
) -> i64 {
    if out_len != 104 {
        return -WRONG_LENGTH;
    }
    let first = slice::from_raw_parts(first, first_len);
    let second = slice::from_raw_parts(second, second_len);
    match baseline::numbers::join(first_profile, first, second_profile, second) {
        Ok(rows) => {
            slice::from_raw_parts_mut(out, rows.len()).copy_from_slice(&rows);
            rows.len() as i64
        }
        Err(number) => -i64::from(number),
    }
}

/// # Safety
/// Each pointer and length are a live slice.
#[no_mangle]
pub unsafe extern "C" fn swivelcrane_row(
    profile: i64,
    chain: *const i64,
    chain_len: usize,
    direction: i64,
    points: *const i64,
    points_len: usize,
    answers: *mut i64,
    answers_len: usize,
) -> i64 {
    let chain = slice::from_raw_parts(chain, chain_len);
    let points = slice::from_raw_parts(points, points_len);
    let answers = slice::from_raw_parts_mut(answers, answers_len);
    baseline::numbers::row(profile, chain, direction, points, answers).err().map_or(0, i64::from)
}

macro_rules! cartesian {
    ($name:ident, $call:path, $number:ty) => {
        /// # Safety
        /// The pointer and length are a live slice.
        #[no_mangle]
        pub unsafe extern "C" fn $name(
            ellipsoid: i64,
            latitude: i64,
            longitude: i64,
            height: i64,
            out: *mut $number,
            out_len: usize,
        ) -> i64 {
            give($call(ellipsoid, latitude, longitude, height), out, out_len)
        }
    };
}

cartesian!(swivelcrane_cartesian, angle::cartesian, f64);
cartesian!(swivelcrane_cartesian_units, angle::cartesian_units, i64);

/// # Safety
/// The pointer and length are a live slice.
#[no_mangle]
pub unsafe extern "C" fn swivelcrane_geodetic(
    ellipsoid: i64,
    x: i64,
    y: i64,
    z: i64,
    out: *mut i64,
    out_len: usize,
) -> i64 {
    give(baseline::geodetic::geodetic(ellipsoid, [x, y, z]), out, out_len)
}

/// The eight parameters of a projection, where there are as many.
///
/// # Safety
/// The pointer and length are a live slice.
unsafe fn eight<'a>(parameters: *const i64, length: usize) -> Option<&'a [i64; 8]> {
    slice::from_raw_parts(parameters, length).try_into().ok()
}

/// # Safety
/// Each pointer and length are a live slice.
#[no_mangle]
pub unsafe extern "C" fn swivelcrane_rso_forward(
    parameters: *const i64,
    parameters_len: usize,
    latitude: i64,
    longitude: i64,
    out: *mut f64,
    out_len: usize,
) -> i64 {
    let Some(parameters) = eight(parameters, parameters_len) else { return WRONG_LENGTH };
    give(rso::forward(parameters, latitude, longitude), out, out_len)
}

/// # Safety
/// Each pointer and length are a live slice.
#[no_mangle]
pub unsafe extern "C" fn swivelcrane_rso_reverse(
    parameters: *const i64,
    parameters_len: usize,
    easting: f64,
    northing: f64,
    out: *mut i64,
    out_len: usize,
) -> i64 {
    let Some(parameters) = eight(parameters, parameters_len) else { return WRONG_LENGTH };
    give(rso::reverse(parameters, easting, northing), out, out_len)
}

macro_rules! cassini {
    ($name:ident, $call:path, $number:ty) => {
        /// # Safety
        /// The pointer and length are a live slice.
        #[no_mangle]
        pub unsafe extern "C" fn $name(
            ellipsoid: i64,
            origin_latitude: i64,
            origin_longitude: i64,
            false_easting: i64,
            false_northing: i64,
            latitude: i64,
            longitude: i64,
            out: *mut $number,
            out_len: usize,
        ) -> i64 {
            let numbers = [ellipsoid, origin_latitude, origin_longitude, false_easting, false_northing];
            let answer = Origin::new(numbers).and_then(|origin| $call(&origin, latitude, longitude));
            give(answer, out, out_len)
        }
    };
}

cassini!(swivelcrane_cassini, Origin::cassini, f64);
cassini!(swivelcrane_cassini_millimetres, Origin::cassini_millimetres, i64);

/// # Safety
/// The pointer and length are a live slice.
#[no_mangle]
pub unsafe extern "C" fn swivelcrane_round(x: f64, places: u32, out: *mut i64, out_len: usize) -> i64 {
    give(baseline::round::decimals(x, places).map(|whole| [whole]), out, out_len)
}

/// # Safety
/// Each pointer and length are a live slice.
#[no_mangle]
pub unsafe extern "C" fn swivelcrane_later(
    first: *const u8,
    first_len: usize,
    second: *const u8,
    second_len: usize,
    which: *mut i64,
    which_len: usize,
) -> i64 {
    let first = slice::from_raw_parts(first, first_len);
    let second = slice::from_raw_parts(second, second_len);
    let answer = baseline::later::later(first, second);
    give(answer.map(|which| [which]).map_err(|[number, _, _]| number as u8), which, which_len)
}

/// # Safety
/// Each pointer and length are a live slice.
#[no_mangle]
pub unsafe extern "C" fn swivelcrane_later_fault(
    first: *const u8,
    first_len: usize,
    second: *const u8,
    second_len: usize,
    out: *mut i64,
    out_len: usize,
) -> i64 {
    let first = slice::from_raw_parts(first, first_len);
    let second = slice::from_raw_parts(second, second_len);
    give(Ok(baseline::later::later(first, second).err().unwrap_or_default()), out, out_len)
}

/// # Safety
/// Each pointer and length are a live slice.
#[no_mangle]
pub unsafe extern "C" fn swivelcrane_grid_velocity(
    grid: *const u8,
    grid_len: usize,
    latitude: i64,
    longitude: i64,
    datum: i64,
    epoch_before: i64,
    epoch_after: i64,
    out: *mut i64,
    out_len: usize,
) -> i64 {
    let grid = slice::from_raw_parts(grid, grid_len);
    let epochs = [epoch_before, epoch_after];
    give(baseline::grid::velocity(grid, [latitude, longitude], datum, epochs), out, out_len)
}

/// The caller's state, where it has its lengths.
///
/// # Safety
/// Each pointer and length are a live slice.
unsafe fn state<'a>(
    numbers: *mut i64,
    numbers_len: usize,
    line: *mut u8,
    line_len: usize,
) -> Option<State<'a>> {
    let numbers = slice::from_raw_parts_mut(numbers, numbers_len).try_into().ok()?;
    let line = slice::from_raw_parts_mut(line, line_len).try_into().ok()?;
    Some(State { numbers, line })
}

/// # Safety
/// Each pointer and length are a live slice.
#[no_mangle]
pub unsafe extern "C" fn swivelcrane_grid_fault(
    grid: *const u8,
    grid_len: usize,
    out: *mut i64,
    out_len: usize,
) -> i64 {
    let grid = slice::from_raw_parts(grid, grid_len);
    give(Ok(baseline::grid::read(grid).err().unwrap_or_default()), out, out_len)
}

/// # Safety
/// Each pointer and length are a live slice.
#[no_mangle]
pub unsafe extern "C" fn swivelcrane_feed(
    numbers: *mut i64,
    numbers_len: usize,
    line: *mut u8,
    line_len: usize,
    fragment: *const u8,
    fragment_len: usize,
    out: *mut u8,
    out_len: usize,
    told: *mut i64,
    told_len: usize,
) -> i64 {
    let state = state(numbers, numbers_len, line, line_len).filter(|_| out_len >= 200 && told_len == 2);
    let Some(mut state) = state else { return -WRONG_LENGTH };
    let mut text = Vec::new();
    match state.feed(slice::from_raw_parts(fragment, fragment_len), &mut text) {
        Ok((taken, answered)) => {
            slice::from_raw_parts_mut(out, text.len()).copy_from_slice(&text);
            slice::from_raw_parts_mut(told, 2).copy_from_slice(&[taken as i64, i64::from(answered)]);
            text.len() as i64
        }
        Err(number) => -i64::from(number),
    }
}

/// # Safety
/// Each pointer and length are a live slice.
#[no_mangle]
pub unsafe extern "C" fn swivelcrane_finish(
    numbers: *mut i64,
    numbers_len: usize,
    line: *mut u8,
    line_len: usize,
    out: *mut u8,
    out_len: usize,
) -> i64 {
    let state = state(numbers, numbers_len, line, line_len).filter(|_| out_len >= 200);
    let Some(mut state) = state else { return -WRONG_LENGTH };
    let mut text = Vec::new();
    match state.finish(&mut text) {
        Ok(()) => {
            slice::from_raw_parts_mut(out, text.len()).copy_from_slice(&text);
            text.len() as i64
        }
        Err(number) => -i64::from(number),
    }
}

/// The lot plan's own library has this one function.
///
/// # Safety
/// Each pointer and length are a live slice.
#[no_mangle]
pub unsafe extern "C" fn swivelcrane_lot_plan(
    chain: *const u8,
    chain_len: usize,
    point: *const u8,
    point_len: usize,
    ellipsoid: i64,
    origin_latitude: i64,
    origin_longitude: i64,
    false_easting: i64,
    false_northing: i64,
    out: *mut u8,
    out_len: usize,
) -> i64 {
    let chain = slice::from_raw_parts(chain, chain_len);
    let point = slice::from_raw_parts(point, point_len);
    let origin = [ellipsoid, origin_latitude, origin_longitude, false_easting, false_northing];
    let mut line = Vec::new();
    match baseline::lot_plan::lot_plan(chain, point, origin, out_len, &mut line) {
        Ok(()) => {
            slice::from_raw_parts_mut(out, line.len()).copy_from_slice(&line);
            line.len() as i64
        }
        Err(number) => -i64::from(number),
    }
}

macro_rules! text {
    ($name:ident, $call:path) => {
        /// # Safety
        /// Each pointer and length are a live slice.
        #[no_mangle]
        pub unsafe extern "C" fn $name(
            input: *const u8,
            input_len: usize,
            out: *mut u8,
            out_len: usize,
        ) -> i64 {
            if out_len < 13 * input_len.min(65_536) + 9 {
                return -WRONG_LENGTH;
            }
            let mut text = Vec::new();
            $call(slice::from_raw_parts(input, input_len), &mut text);
            slice::from_raw_parts_mut(out, text.len()).copy_from_slice(&text);
            text.len() as i64
        }
    };
}

text!(swivelcrane_sheet, baseline::sheet::sheet);
text!(swivelcrane_plan, baseline::plan::plan);
