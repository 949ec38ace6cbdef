//! The independent program as a library for the fuzzer, which is in C. It is built with LLVM's coverage
//! counters, so the branches that the rules take are what guides the fuzzer.

use paper::angle::Origin;
#[cfg(feature = "standin")]
use standin as _;
use std::slice;

/// 1 where the output is the independent program's for that input, 0 where not; `plan` is 0 for a sheet.
///
/// # Safety
/// Each pointer and length are a live slice.
#[no_mangle]
pub unsafe extern "C" fn oracle_agrees(
    plan: i32,
    input: *const u8,
    input_len: usize,
    output: *const u8,
    output_len: usize,
) -> i32 {
    let input = slice::from_raw_parts(input, input_len);
    let given = slice::from_raw_parts(output, output_len);
    let expected = if plan == 0 { paper::sheet::sheet(input) } else { paper::plan::plan(input) };
    if given == expected {
        return 1;
    }
    let (input, expected, given) = (input.escape_ascii(), expected.escape_ascii(), given.escape_ascii());
    eprintln!("MISMATCH: \"{input}\"\n  independent \"{expected}\"\n  product \"{given}\"");
    0
}

/// 1 where a lot plan's answer, and its buffer that held 0xa5 alone, are the independent program's; 0 where not.
///
/// # Safety
/// Each pointer and length are a live slice; the origin has five numbers.
#[no_mangle]
pub unsafe extern "C" fn oracle_agrees_on_lot(
    chain: *const u8,
    chain_len: usize,
    point: *const u8,
    point_len: usize,
    origin: *const i64,
    out: *const u8,
    out_len: usize,
    answer: i64,
) -> i32 {
    let chain = slice::from_raw_parts(chain, chain_len);
    let point = slice::from_raw_parts(point, point_len);
    let given = slice::from_raw_parts(out, out_len);
    let &[ellipsoid, latitude, longitude, false_easting, false_northing] = &*origin.cast::<[i64; 5]>();
    let origin = Origin { ellipsoid, latitude, longitude, false_easting, false_northing };
    let expected = paper::lot_plan::lot_plan(chain, point, &origin, out_len);
    let (line, number) = match &expected {
        Ok(line) => (line.as_bytes(), line.len() as i64),
        Err(number) => (&b""[..], -i64::from(*number)),
    };
    let untouched = given.get(line.len()..).is_some_and(|rest| rest.iter().all(|byte| *byte == 0xa5));
    if answer == number && given.starts_with(line) && untouched {
        return 1;
    }
    let (chain, point, given) = (chain.escape_ascii(), point.escape_ascii(), given.escape_ascii());
    eprintln!("MISMATCH: \"{chain}\" \"{point}\" {out_len}\n  independent {expected:?}\n  product {answer} \"{given}\"");
    0
}
