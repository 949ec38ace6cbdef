//! The worked values of docs/ORDERS.md, bit for bit, and the other methods beside them.

use paper::ellipsoid::by_code;
use paper::functions::{arcsine, arctan_small, arctangent, artanh, artanh_small, cosh, root, sinh};
use paper::geodetic::{geodetic, quantities, SECONDS};
use paper::library::{self, Place};
use paper::oblique::Oblique;
use paper::rso::{self, Parameters};

/// An f64 as C writes it in hexadecimal: 0x1.8p+1 is 3.
fn hex(text: &str) -> f64 {
    let (sign, text) = text.strip_prefix('-').map_or((1.0, text), |rest| (-1.0, rest));
    let (digits, power) =
        text.strip_prefix("0x1.").and_then(|rest| rest.split_once('p')).expect("0x1.DIGITSpPOWER");
    let fraction = u64::from_str_radix(&format!("{digits:0<13}"), 16).expect("digits");
    let exponent = (1023 + power.parse::<i64>().expect("power")) as u64;
    sign * f64::from_bits(exponent << 52 | fraction)
}

#[track_caller]
fn same(value: f64, text: &str) {
    assert_eq!(value.to_bits(), hex(text).to_bits(), "{value:e} is not {text}");
}

const ARAU: [i64; 3] = [-113105165410, 623631179950, 71174811140];
const BORNEO: [i64; 3] = [-268864329214, 576581414678, 44191247948];

#[test]
fn constants_and_functions() {
    same(paper::angle::K, "0x1.aa7255ef16a90p-35");
    same(SECONDS, "0x1.92dc67331ad7bp+17");
    same(root(1.25), "0x1.1e3779b97f4a8p+0");
    same(root(0.9), "0x1.e5b9d136c6d96p-1");
    same(arctan_small(0.125), "0x1.fd5ba9aac2f6ep-4");
    same(arctangent(0.5), "0x1.dac670561bb4fp-2");
    same(artanh_small(0.125), "0x1.015891c9eaef7p-3");
    same(artanh(0.375), "0x1.93b0aee21c2c8p-2");
    same(arcsine(0.25), "0x1.02be9ce0b87cdp-2");
    same(sinh(0.25), "0x1.02accd9d08102p-2");
    same(cosh(0.25), "0x1.080ab05ca6146p+0");
}

#[test]
fn from_cartesian_at_arau() {
    let q = quantities(by_code(1).expect("a code"), ARAU);
    same(q.p, "0x1.82d8033c61601p+22");
    same(q.tan_u, "0x1.cd84c58f5e658p-4");
    same(q.cos_u, "0x1.fcc7cf7736432p-1");
    same(q.tan_phi, "0x1.cf123b8787117p-4");
    same(q.phi, "0x1.cd1d02fa4b4cap-4");
    same(q.height, "0x1.213fb1c380000p+4");
    same(q.w, "0x1.6f71428fa5defp-3");
    same(q.phi * SECONDS, "0x1.6ad246bf29556p+14");
    same(q.w * SECONDS, "0x1.211e19fd58e4ep+15");
    assert_eq!(geodetic(1, ARAU), Ok([2322056909, 36100705076, 1807805]));
}

#[test]
fn from_cartesian_in_borneo() {
    let q = quantities(by_code(3).expect("a code"), BORNEO);
    same(q.p, "0x1.844c400ebe4b6p+22");
    same(q.tan_phi, "0x1.1e6b93a699ce6p-4");
    same(q.phi, "0x1.1df46a2530796p-4");
    same(q.height, "-0x1.7fd0000000000p-18");
    same(q.w, "0x1.becde5da1022ep-2");
    assert_eq!(geodetic(3, BORNEO), Ok([1440000000, 41400000000, -1]));
}

#[test]
fn refusals_from_cartesian() {
    assert_eq!(geodetic(4, [-195000000000, 600000000000, 0]), Err(12));
    assert_eq!(geodetic(0, ARAU), Err(2));
    assert_eq!(geodetic(0, [0, 0, 0]), Err(2));
    assert_eq!(geodetic(1, [-113105165410, 640000000001, 71174811140]), Err(10));
    assert_eq!(geodetic(1, [i64::MIN, i64::MIN, i64::MIN]), Err(10));
}

/// The other method's own two directions, so that what the order is held to is itself sound.
#[test]
fn the_iteration_comes_home() {
    for code in 1..=4 {
        let e = by_code(code).expect("a code");
        for (latitude, longitude, height) in [(0.0, 1.73, -500.0), (0.07, 1.9, 100.0), (0.1396, 2.09, 9000.0)]
        {
            let from = Place { latitude, longitude, height };
            let home = library::geodetic(e, library::cartesian(e, from));
            assert!(library::apart(e, from, home) < 1e-8, "{from:?} {home:?}");
        }
    }
}

/// Document 004's Borneo example.
const TIMBALAI: [i64; 8] = [4, 1440000000, 41400000000, 19193695370, 19126836850, 99984000000, 0, 0];
/// Azimuth 330°, rectified angle 30°.
const APART: [i64; 8] =
    [1, 360000000, 35640000000, 118800000000, 10800000000, 101000000000, -2000000000, 2000000000];

#[test]
fn the_projection_of_borneo() {
    let p = rso::projection(&Parameters::new(TIMBALAI)).expect("accepted");
    same(p.b, "0x1.00d87aa765fdep+0");
    same(p.a, "0x1.852d5abe79e79p+22");
    same(p.d, "0x1.009ef9f3da08ep+0");
    same(p.g, "0x1.1d78ff1a7bf96p-4");
    same(p.l0, "0x1.1c4a6bfbf29e9p-4");
    same(p.ln_f, "0x1.1d3df5f6fbbbfp-4");
    same(p.ln_h, "0x1.917d47a170000p-19");
    same(p.sin_gamma_0, "0x1.99999998fc98ep-1");
    same(p.cos_gamma_0, "0x1.333333340488ep-1");
    same(p.omega_0, "0x1.7becd87c8c5dfp-4");
    same(p.r, "0x1.83e55763cce6fp+22");
    same(p.rho, "0x1.51e7b629648c4p-23");
    same(p.k2, "0x1.b4396a65e7539p-9");
    same(p.k4, "0x1.b197d4818e9dbp-18");
    same(p.k6, "0x1.27838655f9ffep-26");
    same(p.k8, "0x1.c5109ece963fdp-35");
}

#[test]
fn borneo_forward_and_back() {
    let p = rso::projection(&Parameters::new(TIMBALAI)).expect("accepted");
    let f = rso::lay(&p, 1939411290, 41689981960);
    same(f.l, "0x1.7f24c9dcec24dp-4");
    same(f.ln_q, "0x1.806beb73dfa76p-4");
    same(f.u_, "0x1.675ff0847dfd7p-7");
    same(f.n, "0x1.246b6343b2857p-3");
    same(f.v, "-0x1.1046c97ec23c2p+16");
    same(f.u, "0x1.b81ac83a72493p+19");
    same(f.easting, "0x1.4ba9b7790b20ep+19");
    same(f.northing, "0x1.234a591577e09p+19");
    let [theta, mu] = rso::skewed(&p, f.easting, f.northing);
    same(theta, "-0x1.6763a0de08997p-7");
    same(mu, "0x1.2274cd74e856fp-3");
    let r = rso::lift(&p, theta, mu);
    same(r.u_, "0x1.7f4bfc110960fp-4");
    same(r.l, "0x1.7f24c9dcec23bp-4");
    same(r.z, "0x1.7edd54e692d4ap-5");
    same(r.chi, "0x1.7e960fd300cefp-4");
    same(r.n, "-0x1.b8a4a026052cep-4");
    same(r.phi * SECONDS, "0x1.2f08739bff288p+14");
    same(r.w * SECONDS, "0x1.6a7a3a29c7714p+11");
    let home = rso::reverse(&Parameters::new(TIMBALAI), f.easting, f.northing);
    assert_eq!(home, Ok([1939411290, 41689981960]));
}

/// Document 004 prints these to its last digits.
#[test]
fn borneo_as_printed() {
    let p = rso::projection(&Parameters::new(TIMBALAI)).expect("accepted");
    let f = rso::lay(&p, 1939411290, 41689981960);
    let near =
        |ours: f64, printed: f64, half: f64| assert!((ours - printed).abs() <= half, "{ours} {printed}");
    near(p.b, 1.003303209, 5e-10);
    near(p.a, 6376278.686, 5e-4);
    near((-p.l0).exp(), 0.932946976, 5e-10);
    near(p.d, 1.002425787, 5e-10);
    near(p.ln_f.exp(), 1.072121256, 5e-10);
    near(p.ln_h.exp(), 1.000002991, 5e-10);
    near((-f.l).exp(), 0.910700729, 5e-10);
    near(f.ln_q.exp(), 1.098398182, 5e-10);
    near(f.u_, 0.010967247, 5e-10);
    near(f.v, -69702.787, 5e-4);
    near(f.u, 901334.257, 5e-4);
    near(f.easting, 679245.73, 0.01);
    near(f.northing, 596562.78, 0.01);
}

#[test]
fn angles_well_apart() {
    let p = Parameters::new(APART);
    let [easting, northing] = rso::forward(&p, 2880000000, 43200000000).expect("accepted");
    same(easting, "-0x1.9d634ff539640p+14");
    same(northing, "0x1.a99c0e80372b8p+18");
    assert_eq!(rso::reverse(&p, easting, northing), Ok([2880000000, 43200000000]));
}

/// A plain arctangent would bring it into the ranges.
#[test]
fn the_far_side_of_the_earth() {
    let far = [3, 2880000000, 35640000000, 21600000000, 14001804760, 99000000000, 2000000000, 2000000000];
    assert_eq!(rso::reverse(&Parameters::new(far), -9790000.0, -9600000.0), Err(12));
    let [_, longitude] = Oblique::new(&Parameters::new(far)).reverse(-9790000.0, -9600000.0);
    assert!((longitude.to_degrees() + 59.6).abs() < 0.1, "{}", longitude.to_degrees());
}
