//! The stored values of the test of the C header, worked out from the paper: prints tests/c/stored.h.
//! The inputs are those of tests/c/header.c.

use paper::angle::{self, Origin};
use paper::geodetic::geodetic;
use paper::lot_plan::lot_plan;
use paper::rso::{self, Parameters};
use paper::{decimal, grid, later, numbers};

const CHAIN: [i64; 26] = [
    66, 67, 1, 0, 5, 2000000, -1100000, 85100000, 500000, 12500, -8300, 40250, -1350, //
    84, 0, 5, 2000000, 6, 2006586, -15832, -4363, -9706, 1, 2, 3, 4,
];
const CHAIN_2009: [i64; 26] = [
    66, 67, 1, 0, 5, 2000000, -1100000, 85100000, 500000, 12500, -8300, 40250, -1350, //
    84, 0, 5, 2000000, 7, 2006586, -15832, -4363, -9706, 1, 2, 3, 4,
];
const ARAU_CHAIN: [i64; 52] = [
    84, 0, 6, 2000000, 6, 2006586, -15832, -4363, -9706, 0, 0, 0, 0, //
    86, 0, 6, 2006586, 6, 2010000, -1876, -90, -684, 0, 0, 0, 0, //
    70, 0, 6, 2010000, 10, 2010000, 0, 0, 0, 0, 0, 0, 0, //
    86, 0, 10, 2010000, 10, 2020000, -1874, -169, -502, 0, 0, 0, 0,
];
const PROJECTION: [i64; 8] =
    [3, 1234567890, 39876543210, 112345678901, 15432109876, 100123456789, -1234567890, 987654321];
const ARAU: [i64; 7] = [1, 3, 6, 2000000, -113105165410, 623631179950, 71174811140];
const POINT: [i64; 7] = [12, 4, 1, 0, -122145678901, 622012345678, 53876543210];
const POINT_7: [i64; 7] = [12, 4, 7, 2006586, -122145678901, 622012345678, 53876543210];
const FIRST: &[u8] = b"P\tARAU\t10\t2\t6\t2000000\t-113105165410\t623631179950\t71174811140\n";
const SECOND: &[u8] = b"P\tARAU\t9\t1\t6\t2000000\t-113105165411\t623631179950\t71174811140\n";
const BAD: &[u8] = b"P\tARAU\t9\t1\t6\t2000000\t-113105165411\t+623631179950\t71174811140\n";
const OTHER: &[u8] = b"P\tARAV\t9\t1\t6\t2000000\t-113105165411\t623631179950\t71174811140\n";
const GRID: &[u8] = b"G\t2310000000\t36090000000\t2\t3\t5\n-1800\t200\t30\n1400\t-500\t60\n7\t8\t-9\n\
    1000\t-110\t1200\n13\t14\t-1500\n-\n";

fn main() {
    let there = numbers::forward(2021, &CHAIN, &POINT).unwrap_or_default();
    let home = numbers::inverse(2021, &CHAIN, &there).unwrap_or_default();
    println!(
        "/* Worked out by compare/paper: cargo run --manifest-path compare/Cargo.toml --bin paper-stored */"
    );
    whole("forward", &there);
    whole("inverse", &home);
    let arau = numbers::forward(2021, &ARAU_CHAIN, &ARAU).unwrap_or_default();
    whole("arau_forward", &arau);
    whole("arau_inverse", &numbers::inverse(2021, &ARAU_CHAIN, &arau).unwrap_or_default());
    whole("forward_2009", &numbers::forward(2009, &CHAIN_2009, &POINT).unwrap_or_default());
    whole("inverse_2009", &numbers::inverse(2009, &CHAIN_2009, &POINT_7).unwrap_or_default());
    let mut points = [ARAU, POINT, ARAU].concat();
    (points[14], points[20]) = (77, 1);
    whole("row", &row(0, &points));
    whole("row_back", &row(1, &arau));
    whole("join", &numbers::join(2009, &CHAIN_2009[..13], 2009, &CHAIN_2009[13..]).unwrap_or_default());
    let (parts, step) =
        grid::velocity(GRID, [2322056909, 36100705076], 7, [2010000, 2020000]).expect("a step");
    whole("grid_velocity", &[&parts[..], &numbers::step_row(&step)].concat());
    whole("grid_fault_none", &grid_fault(GRID));
    whole("grid_fault_over", &grid_fault(&[GRID, b"-\n"].concat()));
    whole("grid_fault", &grid_fault(b"G\t2310000000\t36090000000\t2\t3\t5\n1\t2\t3\n1\t2501\t03\n"));
    lot_plans();
    bits("cartesian", &angle::cartesian(2, 1234567890, 36700000123, 456789).unwrap_or_default());
    whole("cartesian_units", &angle::cartesian_units(2, 1234567890, 36700000123, 456789).unwrap_or_default());
    whole("geodetic", &geodetic(2, [-131769233712, 622894736791, 37897691636]).unwrap_or_default());
    let origin = Origin {
        ellipsoid: 3,
        latitude: 1440000000,
        longitude: 36720000000,
        false_easting: 50000,
        false_northing: -25000,
    };
    bits("cassini", &angle::cassini(&origin, 1445000000, 36800000000).unwrap_or_default());
    whole(
        "cassini_millimetres",
        &angle::cassini_millimetres(&origin, 1445000000, 36800000000).unwrap_or_default(),
    );
    let parameters = Parameters::new(PROJECTION);
    let metres = rso::forward(&parameters, 2345678901, 38765432109).unwrap_or_default();
    bits("rso_forward", &metres);
    whole("rso_reverse", &rso::reverse(&parameters, metres[0], metres[1]).unwrap_or_default());
    whole("rounded", &[decimal::round(-1234.567895, 3).unwrap_or_default()]);
    let which = |first, second| match later::later(first, second) {
        Ok(later::Which::First) => 1,
        Ok(later::Which::Second) => 2,
        Err(_) => 0,
    };
    whole("later", &[which(FIRST, SECOND), which(SECOND, FIRST)]);
    whole("later_fault", &fault(FIRST, BAD));
    whole("later_fault_first", &fault(BAD, b""));
    whole("later_fault_ids", &fault(FIRST, OTHER));
    whole("later_fault_none", &fault(FIRST, SECOND));
}

fn grid_fault(text: &[u8]) -> [i64; 3] {
    let refused = grid::read(text).err();
    refused.map_or([0; 3], |r| [i64::from(r.number), r.line as i64, r.place as i64])
}

fn row(direction: i64, points: &[i64]) -> Vec<i64> {
    let mut answers = vec![0; points.len() / 7 * 8];
    numbers::row(2021, &ARAU_CHAIN, direction, points, &mut answers).expect("answered");
    answers
}

fn lot_plans() {
    let origin = Origin {
        ellipsoid: 1,
        latitude: 2149440000,
        longitude: 36243000000,
        false_easting: 50000,
        false_northing: -25000,
    };
    let chain = b"E\t2021\nS\tT\t6\t2000000\t6\t2006586\t-15832\t-4363\t-9706\n";
    let point = b"P\tARAU\t7\t3\t6\t2000000\t-113105165410\t623631179950\t71174811140\n";
    for (name, chain) in [("lot_plan", &chain[..]), ("lot_plan_no_step", b"")] {
        let line = lot_plan(chain, point, &origin, 200).expect("a line");
        println!("#define stored_{name} \"{}\"", line.escape_default());
    }
    let [latitude, longitude, _] =
        geodetic(1, [-113105181242, 623631175587, 71174801434]).unwrap_or_default();
    let millimetres = angle::cassini_millimetres(&origin, latitude, longitude).unwrap_or_default();
    whole("lot_plan_millimetres", &millimetres);
}

fn fault(first: &[u8], second: &[u8]) -> [i64; 3] {
    let refused = later::later(first, second).err();
    refused.map_or([0; 3], |r| [i64::from(r.number), r.line, r.place as i64])
}

fn whole(name: &str, values: &[i64]) {
    let list: Vec<String> = values.iter().map(i64::to_string).collect();
    println!("static const int64_t stored_{name}[{}] = {{{}}};", values.len(), list.join(", "));
}

fn bits(name: &str, values: &[f64]) {
    let list: Vec<String> = values.iter().map(|x| format!("UINT64_C(0x{:016x})", x.to_bits())).collect();
    println!("static const uint64_t stored_{name}[{}] = {{{}}};", values.len(), list.join(", "));
}
