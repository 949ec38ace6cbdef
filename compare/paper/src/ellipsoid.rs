//! Document 01, "Angles to metres": the four ellipsoids, the prime vertical and the meridian arc.

use crate::series::sin;

#[derive(Clone, Copy, Debug)]
pub struct Ellipsoid {
    pub a: f64,
    pub f: f64,
    pub e2: f64,
}

pub fn by_code(code: i64) -> Option<Ellipsoid> {
    let (a, reciprocal_flattening) = match code {
        1 => (6378137.0, 298.257222101),
        2 => (6378137.0, 298.257223563),
        3 => (6377304.063, 300.8017),
        4 => (6377298.556, 300.8017),
        _ => return None,
    };
    let f = 1.0 / reciprocal_flattening;
    Some(Ellipsoid { a, f, e2: f * (2.0 - f) })
}

/// ν, the radius of the prime vertical.
pub fn prime_vertical(e: Ellipsoid, sin_phi: f64) -> f64 {
    let q = e.e2 * (sin_phi * sin_phi);
    e.a * (1.0 + q * (1.0 / 2.0 + q * (3.0 / 8.0 + q * (5.0 / 16.0 + q * 35.0 / 128.0))))
}

/// M, the arc of the meridian from the equator.
pub fn meridian(e: Ellipsoid, phi: f64) -> f64 {
    let e2 = e.e2;
    let e4 = e2 * e2;
    let e6 = e4 * e2;
    let m0 = ((1.0 - e2 / 4.0) - 3.0 * e4 / 64.0) - 5.0 * e6 / 256.0;
    let m2 = (3.0 * e2 / 8.0 + 3.0 * e4 / 32.0) + 45.0 * e6 / 1024.0;
    let m4 = 15.0 * e4 / 256.0 + 45.0 * e6 / 1024.0;
    let m6 = 35.0 * e6 / 3072.0;
    e.a * (((m0 * phi - m2 * sin(2.0 * phi)) + m4 * sin(4.0 * phi)) - m6 * sin(6.0 * phi))
}
