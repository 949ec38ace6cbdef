//! Latitude, longitude and height from X, Y, Z: in the written order, and the same formulas over the library's
//! functions, for the times.

use crate::angle::{angles, by_code, height_in_range, Ellipsoid};
use crate::check::{in_area, ANGLE, OUTSIDE, RANGE};
use crate::elementary::{arctan_small, cos, root, sin, SECONDS};
use crate::round::decimals;

/// 2, 10, 12.
pub fn geodetic(code: i64, xyz: [i64; 3]) -> Result<[i64; 3], u8> {
    answer(code, xyz, in_order)
}

/// The same formulas with the library's root, arctangent, sine and cosine: other last bits.
pub fn over_the_library(code: i64, xyz: [i64; 3]) -> Result<[i64; 3], u8> {
    answer(code, xyz, by_library)
}

/// The latitude and the longitude past 90° in radians, the height in metres.
type Formulas = fn(&Ellipsoid, [i64; 3]) -> [f64; 3];

#[inline(always)]
fn answer(code: i64, xyz: [i64; 3], formulas: Formulas) -> Result<[i64; 3], u8> {
    let Some(e) = by_code(code) else { return Err(RANGE) };
    if !in_area(xyz) {
        return Err(OUTSIDE);
    }
    let [phi, w, h] = formulas(e, xyz);
    let rounded = |value: f64| decimals(value, 5).map_err(|_| ANGLE);
    let (latitude, longitude) = (rounded(phi * SECONDS)?, rounded(w * SECONDS)? + 32_400_000_000);
    let height = rounded(h)?;
    if angles(latitude, longitude) && height_in_range(height) {
        Ok([latitude, longitude, height])
    } else {
        Err(ANGLE)
    }
}

#[inline]
fn in_order(e: &Ellipsoid, [x, y, z]: [i64; 3]) -> [f64; 3] {
    let q = -x as f64 / y as f64;
    let r = root(1.0 + q * q);
    let p = y as f64 / 100_000.0 * r;
    let z = z as f64 / 100_000.0;
    let t = e.a * z / (e.b * p);
    let cu = 1.0 / root(1.0 + t * t);
    let su = t * cu;
    let phi = arctan_small((z + e.second * e.b * (su * su * su)) / (p - e.e2 * e.a * (cu * cu * cu)));
    let (s, c) = (sin(phi), cos(phi));
    let h = (p * c + z * s) - (1.0 - e.e2 * (s * s)) * e.prime_vertical(s);
    [phi, 2.0 * arctan_small(q / (1.0 + r)), h]
}

#[inline]
fn by_library(e: &Ellipsoid, [x, y, z]: [i64; 3]) -> [f64; 3] {
    let [x, y, z] = [x, y, z].map(|units| units as f64 / 100_000.0);
    let p = (x * x + y * y).sqrt();
    let (su, cu) = (e.a * z / (e.b * p)).atan().sin_cos();
    let tan_phi = (z + e.second * e.b * (su * su * su)) / (p - e.e2 * e.a * (cu * cu * cu));
    let phi = tan_phi.atan();
    let (s, c) = phi.sin_cos();
    [phi, (-x / y).atan(), p * c + z * s - e.a * (1.0 - e.e2 * s * s).sqrt()]
}
