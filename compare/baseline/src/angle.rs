//! Geodetic to Cartesian and Cassini-Soldner, with what depends on the origin alone made ready once.

use crate::check::{within, ANGLE, APART, RANGE};
use crate::elementary::{cos, sin, K};
use crate::round::decimals;

#[derive(Clone, Copy, Debug)]
pub(crate) struct Ellipsoid {
    pub a: f64,
    pub e2: f64,
    /// The minor half-axis.
    pub b: f64,
    /// e2/(1-e2).
    pub second: f64,
    /// The four factors of the meridian arc.
    m: [f64; 4],
}

const fn ellipsoid(a: f64, reciprocal: f64) -> Ellipsoid {
    let f = 1.0 / reciprocal;
    let e2 = f * (2.0 - f);
    let e4 = e2 * e2;
    let e6 = e4 * e2;
    let m = [
        ((1.0 - e2 / 4.0) - 3.0 * e4 / 64.0) - 5.0 * e6 / 256.0,
        (3.0 * e2 / 8.0 + 3.0 * e4 / 32.0) + 45.0 * e6 / 1024.0,
        15.0 * e4 / 256.0 + 45.0 * e6 / 1024.0,
        35.0 * e6 / 3072.0,
    ];
    Ellipsoid { a, e2, b: a * (1.0 - f), second: e2 / (1.0 - e2), m }
}

static ELLIPSOIDS: [Ellipsoid; 4] = [
    ellipsoid(6378137.0, 298.257222101),
    ellipsoid(6378137.0, 298.257223563),
    ellipsoid(6377304.063, 300.8017),
    ellipsoid(6377298.556, 300.8017),
];

pub(crate) fn by_code(code: i64) -> Option<&'static Ellipsoid> {
    if (1..=4).contains(&code) {
        Some(&ELLIPSOIDS[(code - 1) as usize])
    } else {
        None
    }
}

impl Ellipsoid {
    #[inline]
    pub fn prime_vertical(&self, sin_phi: f64) -> f64 {
        let q = self.e2 * (sin_phi * sin_phi);
        self.a * (1.0 + q * (0.5 + q * (0.375 + q * (0.3125 + q * 0.2734375))))
    }

    #[inline]
    fn meridian(&self, phi: f64) -> f64 {
        let [m0, m2, m4, m6] = self.m;
        self.a * (((m0 * phi - m2 * sin(2.0 * phi)) + m4 * sin(4.0 * phi)) - m6 * sin(6.0 * phi))
    }
}

pub(crate) fn angles(latitude: i64, longitude: i64) -> bool {
    (0..=2_880_000_000).contains(&latitude) && (35_640_000_000..=43_200_000_000).contains(&longitude)
}

pub(crate) fn height_in_range(height: i64) -> bool {
    (-50_000_000..=900_000_000).contains(&height)
}

pub fn cartesian(code: i64, latitude: i64, longitude: i64, height: i64) -> Result<[f64; 3], u8> {
    let Some(e) = by_code(code) else { return Err(RANGE) };
    if !angles(latitude, longitude) || !height_in_range(height) {
        return Err(ANGLE);
    }
    let phi = latitude as f64 * K;
    let w = (longitude - 32_400_000_000) as f64 * K;
    let h = height as f64 / 100_000.0;
    let sin_phi = sin(phi);
    let nu = e.prime_vertical(sin_phi);
    let flat = (nu + h) * cos(phi);
    Ok([flat * -sin(w), flat * cos(w), ((1.0 - e.e2) * nu + h) * sin_phi])
}

pub fn cartesian_units(code: i64, latitude: i64, longitude: i64, height: i64) -> Result<[i64; 3], u8> {
    let [x, y, z] = cartesian(code, latitude, longitude, height)?;
    Ok([decimals(x, 5)?, decimals(y, 5)?, decimals(z, 5)?])
}

#[derive(Clone, Copy, Debug)]
pub struct Origin {
    ellipsoid: &'static Ellipsoid,
    longitude: i64,
    m0: f64,
    easting: f64,
    northing: f64,
}

impl Origin {
    /// Code, latitude, longitude, FE, FN. 2, 12.
    pub fn new([code, latitude, longitude, easting, northing]: [i64; 5]) -> Result<Origin, u8> {
        let Some(ellipsoid) = by_code(code) else { return Err(RANGE) };
        if !within(&[easting, northing], 2_000_000_000) {
            return Err(RANGE);
        }
        if !angles(latitude, longitude) {
            return Err(ANGLE);
        }
        let m0 = ellipsoid.meridian(latitude as f64 * K);
        let (easting, northing) = (easting as f64 / 1000.0, northing as f64 / 1000.0);
        Ok(Origin { ellipsoid, longitude, m0, easting, northing })
    }

    /// 12, 13.
    pub fn cassini(&self, latitude: i64, longitude: i64) -> Result<[f64; 2], u8> {
        if !angles(latitude, longitude) {
            return Err(ANGLE);
        }
        let across = longitude - self.longitude;
        if across.abs() > 1_440_000_000 {
            return Err(APART);
        }
        let e = self.ellipsoid;
        let phi = latitude as f64 * K;
        let (sin_phi, cos_phi) = (sin(phi), cos(phi));
        let nu = e.prime_vertical(sin_phi);
        let a = (across as f64 * K) * cos_phi;
        let t = sin_phi / cos_phi;
        let tt = t * t;
        let c = (e.second * cos_phi) * cos_phi;
        let a2 = a * a;
        let a4 = a2 * a2;
        let east = (a - (tt * (a2 * a)) / 6.0) - ((((8.0 - tt) + 8.0 * c) * tt) * (a4 * a)) / 120.0;
        let north = (nu * t) * (a2 / 2.0 + (((5.0 - tt) + 6.0 * c) * a4) / 24.0);
        Ok([self.easting + nu * east, self.northing + ((e.meridian(phi) - self.m0) + north)])
    }

    pub fn cassini_millimetres(&self, latitude: i64, longitude: i64) -> Result<[i64; 2], u8> {
        let [easting, northing] = self.cassini(latitude, longitude)?;
        Ok([decimals(easting, 3)?, decimals(northing, 3)?])
    }
}
