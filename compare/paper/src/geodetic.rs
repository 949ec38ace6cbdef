//! docs/ORDERS.md, section 4: latitude, longitude and height from X, Y, Z (document 001, 2.2.2).

use crate::decimal::round;
use crate::ellipsoid::{by_code, prime_vertical, Ellipsoid};
use crate::functions::{arctan_small, root};
use crate::ranges::{self, Position};
use crate::refusal::{unless, Refusal, ANGLE, OUTSIDE, RANGE};
use crate::series::{cos, sin};

/// Seconds in a radian, with the digits of docs/ORDERS.md.
#[allow(clippy::excessive_precision)]
pub const SECONDS: f64 = 206264.806247096355;

/// The quantities of the order that are worth looking at; angles in radians, lengths in metres.
#[derive(Clone, Copy, Debug)]
pub struct Quantities {
    pub p: f64,
    pub tan_u: f64,
    pub cos_u: f64,
    pub tan_phi: f64,
    pub phi: f64,
    pub height: f64,
    /// The longitude past 90°.
    pub w: f64,
}

/// Latitude, longitude and height in whole units. Order: 2, 10, 12.
pub fn geodetic(code: i64, position: Position) -> Result<[i64; 3], Refusal> {
    let e = by_code(code).ok_or(RANGE)?;
    unless(ranges::in_area(&position), OUTSIDE)?;
    let q = quantities(e, position);
    let latitude = rounded(q.phi * SECONDS)?;
    let longitude = rounded(q.w * SECONDS)? + 32_400_000_000;
    let height = rounded(q.height)?;
    unless(ranges::latitude(latitude), ANGLE)?;
    unless(ranges::longitude(longitude), ANGLE)?;
    unless(ranges::height(height), ANGLE)?;
    Ok([latitude, longitude, height])
}

/// At 5 places; its 14 is 12 here.
pub fn rounded(value: f64) -> Result<i64, Refusal> {
    round(value, 5).map_err(|_| ANGLE)
}

/// For a position in the area.
pub fn quantities(e: Ellipsoid, [x_units, y_units, z_units]: Position) -> Quantities {
    let b = e.a * (1.0 - e.f);
    let eps = e.e2 / (1.0 - e.e2);
    let y = y_units as f64 / 100000.0;
    let z = z_units as f64 / 100000.0;
    let q = (-x_units) as f64 / y_units as f64;
    let r = root(1.0 + q * q);
    let p = y * r;
    let t = (e.a * z) / (b * p);
    let cu = 1.0 / root(1.0 + t * t);
    let su = t * cu;
    let tan_phi = (z + (eps * b) * ((su * su) * su)) / (p - (e.e2 * e.a) * ((cu * cu) * cu));
    let phi = arctan_small(tan_phi);
    let s = sin(phi);
    let c = cos(phi);
    let v = e.e2 * (s * s);
    let nu = prime_vertical(e, s);
    let height = (p * c + z * s) - (1.0 - v) * nu;
    let w = 2.0 * arctan_small(q / (1.0 + r));
    Quantities { p, tan_u: t, cos_u: cu, tan_phi, phi, height, w }
}
