//! docs/ORDERS.md, section 5: the Hotine oblique Mercator, variant A (document 004), forward and reverse.

use crate::angle::{angles_in_range, K};
use crate::ellipsoid::by_code;
use crate::functions::{arcsine, arctan_small, arctangent, artanh, artanh_small, cosh, pa, root, sinh};
use crate::geodetic::{rounded, SECONDS};
use crate::ranges;
use crate::refusal::{unless, Refusal, ANGLE, PROJECTED, RANGE};
use crate::series::{cos, sin};

/// The parameters of a projection: angles in units of 0.00001", scale in 10^-11, false origin in millimetres.
#[derive(Clone, Copy, Debug, PartialEq, Eq)]
pub struct Parameters {
    pub ellipsoid: i64,
    pub latitude: i64,
    pub longitude: i64,
    pub azimuth: i64,
    pub rectified: i64,
    pub scale: i64,
    pub false_easting: i64,
    pub false_northing: i64,
}

impl Parameters {
    pub fn new(numbers: [i64; 8]) -> Parameters {
        let [ellipsoid, latitude, longitude, azimuth, rectified, scale, false_easting, false_northing] =
            numbers;
        Parameters {
            ellipsoid,
            latitude,
            longitude,
            azimuth,
            rectified,
            scale,
            false_easting,
            false_northing,
        }
    }
}

/// What the parameters alone decide; document 004's letters.
#[derive(Clone, Copy, Debug)]
pub struct Projection {
    pub centre_longitude: i64,
    pub e2: f64,
    pub b: f64,
    pub a: f64,
    pub d: f64,
    pub g: f64,
    pub l0: f64,
    pub ln_f: f64,
    pub ln_h: f64,
    pub sin_gamma_0: f64,
    pub cos_gamma_0: f64,
    /// λc - λ0.
    pub omega_0: f64,
    pub sin_gamma_c: f64,
    pub cos_gamma_c: f64,
    /// A/B and B/A.
    pub r: f64,
    pub rho: f64,
    pub false_easting: f64,
    pub false_northing: f64,
    pub k2: f64,
    pub k4: f64,
    pub k6: f64,
    pub k8: f64,
}

fn parameter_faults(p: &Parameters) -> Result<(), Refusal> {
    unless(by_code(p.ellipsoid).is_some(), RANGE)?;
    unless(ranges::centre(p.latitude, p.longitude), RANGE)?;
    unless(ranges::skew(p.azimuth) && ranges::skew(p.rectified), RANGE)?;
    unless(ranges::projection_scale(p.scale), RANGE)?;
    unless(ranges::false_origin(p.false_easting) && ranges::false_origin(p.false_northing), RANGE)
}

/// In radians; from 300° on less a full turn, in whole units.
fn skew_radians(units: i64) -> f64 {
    let reduced = if units >= 108_000_000_000 { units - 129_600_000_000 } else { units };
    reduced as f64 * K
}

/// -ln t for the sine of a latitude.
fn isometric(e2: f64, s: f64) -> f64 {
    artanh_small(s) - pa(-(e2 * (s * s))) * (e2 * s)
}

/// Order: 2.
pub fn projection(p: &Parameters) -> Result<Projection, Refusal> {
    parameter_faults(p)?;
    let e = by_code(p.ellipsoid).ok_or(RANGE)?;
    let e2 = e.e2;
    let phi_c = p.latitude as f64 * K;
    let (s, c) = (sin(phi_c), cos(phi_c));
    let c2 = c * c;
    let m = 1.0 - e2;
    let g_ = 1.0 - e2 * (s * s);
    let k_c = p.scale as f64 / 100000000000.0;
    let b = root(1.0 + (e2 * (c2 * c2)) / m);
    let (rm, rg) = (root(m), root(g_));
    let a = (((e.a * b) * k_c) * rm) / g_;
    let l0 = isometric(e2, s);
    let d = (b * rm) / (c * rg);
    let g = (rm * (s / c)) / rg;
    let j = g / d;
    let ln_f = artanh_small(j);
    let ln_h = ln_f - b * l0;
    let alpha = skew_radians(p.azimuth);
    let (sin_alpha, cos_alpha) = (sin(alpha), cos(alpha));
    let sin_gamma_0 = sin_alpha / d;
    let i = (sin_alpha / cos_alpha) * j;
    let cos_gamma_0 = cos_alpha * root(1.0 + i * i);
    let omega_0 = arcsine(g * (sin_gamma_0 / cos_gamma_0)) / b;
    let gamma_c = skew_radians(p.rectified);
    let [k2, k4, k6, k8] = latitude_series(e2);
    Ok(Projection {
        centre_longitude: p.longitude,
        e2,
        b,
        a,
        d,
        g,
        l0,
        ln_f,
        ln_h,
        sin_gamma_0,
        cos_gamma_0,
        omega_0,
        sin_gamma_c: sin(gamma_c),
        cos_gamma_c: cos(gamma_c),
        r: a / b,
        rho: b / a,
        false_easting: p.false_easting as f64 / 1000.0,
        false_northing: p.false_northing as f64 / 1000.0,
        k2,
        k4,
        k6,
        k8,
    })
}

/// k2, k4, k6, k8.
fn latitude_series(e2: f64) -> [f64; 4] {
    let e4 = e2 * e2;
    let e6 = e4 * e2;
    let e8 = e4 * e4;
    [
        ((e2 / 2.0 + (5.0 * e4) / 24.0) + e6 / 12.0) + (13.0 * e8) / 360.0,
        ((7.0 * e4) / 48.0 + (29.0 * e6) / 240.0) + (811.0 * e8) / 11520.0,
        (7.0 * e6) / 120.0 + (81.0 * e8) / 1120.0,
        (4279.0 * e8) / 161280.0,
    ]
}

/// Forward's quantities that are worth looking at.
#[derive(Clone, Copy, Debug)]
pub struct Forward {
    pub l: f64,
    pub ln_q: f64,
    pub u_: f64,
    pub n: f64,
    pub v: f64,
    pub u: f64,
    pub easting: f64,
    pub northing: f64,
}

/// E and N in metres. Order: 2, 12.
pub fn forward(parameters: &Parameters, latitude: i64, longitude: i64) -> Result<[f64; 2], Refusal> {
    let p = projection(parameters)?;
    unless(angles_in_range(latitude, longitude), ANGLE)?;
    let f = lay(&p, latitude, longitude);
    Ok([f.easting, f.northing])
}

/// For a latitude and longitude in their ranges.
pub fn lay(p: &Projection, latitude: i64, longitude: i64) -> Forward {
    let sin_phi = sin(latitude as f64 * K);
    let l = isometric(p.e2, sin_phi);
    let ln_q = p.ln_h + p.b * l;
    let (s, t) = (sinh(ln_q), cosh(ln_q));
    let x = p.b * ((longitude - p.centre_longitude) as f64 * K + p.omega_0);
    let (v_, w) = (sin(x), cos(x));
    let u_ = (s * p.sin_gamma_0 - v_ * p.cos_gamma_0) / t;
    let n = (s * p.cos_gamma_0 + v_ * p.sin_gamma_0) / w;
    let v = -(p.r * artanh(u_));
    let u = p.r * arctangent(n);
    let easting = (v * p.cos_gamma_c + u * p.sin_gamma_c) + p.false_easting;
    let northing = (u * p.cos_gamma_c - v * p.sin_gamma_c) + p.false_northing;
    Forward { l, ln_q, u_, n, v, u, easting, northing }
}

/// The reverse's quantities that are worth looking at; phi and w (the longitude past the centre's) in radians.
#[derive(Clone, Copy, Debug)]
pub struct Reverse {
    pub u_: f64,
    pub l: f64,
    pub z: f64,
    pub chi: f64,
    pub phi: f64,
    pub n: f64,
    pub w: f64,
}

/// Latitude and longitude in whole units. Order: 2, 23, 12.
pub fn reverse(parameters: &Parameters, easting: f64, northing: f64) -> Result<[i64; 2], Refusal> {
    let p = projection(parameters)?;
    let small = |metres: f64| metres.is_finite() && metres.abs() < 10_000_000.0;
    unless(small(easting) && small(northing), PROJECTED)?;
    let [theta, mu] = skewed(&p, easting, northing);
    let gate = (-1.0..=1.0).contains(&theta) && (-1.0..=1.0).contains(&mu);
    unless(gate, ANGLE)?;
    let r = lift(&p, theta, mu);
    let latitude = rounded(r.phi * SECONDS)?;
    let longitude = rounded(r.w * SECONDS)? + p.centre_longitude;
    unless(angles_in_range(latitude, longitude), ANGLE)?;
    Ok([latitude, longitude])
}

/// θ and μ: v' and u' over A/B.
pub fn skewed(p: &Projection, easting: f64, northing: f64) -> [f64; 2] {
    let de = easting - p.false_easting;
    let dn = northing - p.false_northing;
    let v = de * p.cos_gamma_c - dn * p.sin_gamma_c;
    let u = dn * p.cos_gamma_c + de * p.sin_gamma_c;
    [v * p.rho, u * p.rho]
}

/// Behind the gate.
pub fn lift(p: &Projection, theta: f64, mu: f64) -> Reverse {
    let s = -(sinh(theta));
    let t = cosh(theta);
    let (v_, w_) = (sin(mu), cos(mu));
    let u_ = (v_ * p.cos_gamma_0 + s * p.sin_gamma_0) / t;
    let l = (artanh_small(u_) - p.ln_h) / p.b;
    let half = 0.5 * l;
    let z = sinh(half) / cosh(half);
    let chi = 2.0 * arctan_small(z);
    let phi = (((chi + sin(2.0 * chi) * p.k2) + sin(4.0 * chi) * p.k4) + sin(6.0 * chi) * p.k6)
        + sin(8.0 * chi) * p.k8;
    let n = (s * p.cos_gamma_0 - v_ * p.sin_gamma_0) / w_;
    let w = (-p.omega_0) - arctangent(n) / p.b;
    Reverse { u_, l, z, chi, phi, n, w }
}
