//! Document 01, "Angles to metres": geodetic to Cartesian, and Cassini-Soldner forward.

use crate::decimal::round;
use crate::ellipsoid::{by_code, meridian, prime_vertical, Ellipsoid};
use crate::ranges;
use crate::refusal::{unless, Refusal, ANGLE, APART, RANGE};
use crate::series::{cos, sin};

/// Radians in 0.00001".
pub const K: f64 = 4.84813681109536e-11;

pub fn angles_in_range(latitude: i64, longitude: i64) -> bool {
    ranges::latitude(latitude) && ranges::longitude(longitude)
}

/// X, Y, Z in metres. Order: 2, 12.
pub fn cartesian(code: i64, latitude: i64, longitude: i64, height: i64) -> Result<[f64; 3], Refusal> {
    let e = by_code(code).ok_or(RANGE)?;
    unless(angles_in_range(latitude, longitude) && ranges::height(height), ANGLE)?;
    let phi = latitude as f64 * K;
    let w = (longitude - 32_400_000_000) as f64 * K;
    let cos_l = -sin(w);
    let sin_l = cos(w);
    let h = height as f64 / 100000.0;
    let nu = prime_vertical(e, sin(phi));
    Ok([((nu + h) * cos(phi)) * cos_l, ((nu + h) * cos(phi)) * sin_l, ((1.0 - e.e2) * nu + h) * sin(phi)])
}

/// X, Y, Z in whole units of 0.00001 m. Order: 2, 12, then 14.
pub fn cartesian_units(code: i64, latitude: i64, longitude: i64, height: i64) -> Result<[i64; 3], Refusal> {
    let [x, y, z] = cartesian(code, latitude, longitude, height)?;
    Ok([round(x, 5)?, round(y, 5)?, round(z, 5)?])
}

#[derive(Clone, Copy, Debug, PartialEq, Eq)]
pub struct Origin {
    pub ellipsoid: i64,
    pub latitude: i64,
    pub longitude: i64,
    /// Millimetres, as FN below.
    pub false_easting: i64,
    pub false_northing: i64,
}

/// What an origin alone decides: 2, 12.
pub fn origin_faults(o: &Origin) -> Result<(), Refusal> {
    unless(by_code(o.ellipsoid).is_some(), RANGE)?;
    unless(ranges::false_origin(o.false_easting) && ranges::false_origin(o.false_northing), RANGE)?;
    unless(angles_in_range(o.latitude, o.longitude), ANGLE)
}

/// E and N in metres. Order: 2, 12, 13.
pub fn cassini(o: &Origin, latitude: i64, longitude: i64) -> Result<[f64; 2], Refusal> {
    origin_faults(o)?;
    unless(angles_in_range(latitude, longitude), ANGLE)?;
    unless((longitude - o.longitude).abs() <= 1_440_000_000, APART)?;
    let e = by_code(o.ellipsoid).ok_or(RANGE)?;
    Ok(grid(o, e, latitude, longitude))
}

fn grid(o: &Origin, e: Ellipsoid, latitude: i64, longitude: i64) -> [f64; 2] {
    let phi = latitude as f64 * K;
    let (sin_phi, cos_phi) = (sin(phi), cos(phi));
    let nu = prime_vertical(e, sin_phi);
    let fe = o.false_easting as f64 / 1000.0;
    let fn_ = o.false_northing as f64 / 1000.0;
    let m = meridian(e, phi);
    let m0 = meridian(e, o.latitude as f64 * K);

    let a = ((longitude - o.longitude) as f64 * K) * cos_phi;
    let t = sin_phi / cos_phi;
    let tt = t * t;
    let c = ((e.e2 / (1.0 - e.e2)) * cos_phi) * cos_phi;
    let a2 = a * a;
    let a3 = a2 * a;
    let a4 = a2 * a2;
    let a5 = a4 * a;
    let easting = fe + nu * ((a - (tt * a3) / 6.0) - ((((8.0 - tt) + 8.0 * c) * tt) * a5) / 120.0);
    let northing = fn_ + ((m - m0) + (nu * t) * (a2 / 2.0 + (((5.0 - tt) + 6.0 * c) * a4) / 24.0));
    [easting, northing]
}

/// E and N in whole millimetres. Order: 2, 12, 13, then 14.
pub fn cassini_millimetres(o: &Origin, latitude: i64, longitude: i64) -> Result<[i64; 2], Refusal> {
    let [easting, northing] = cassini(o, latitude, longitude)?;
    Ok([round(easting, 3)?, round(northing, 3)?])
}
