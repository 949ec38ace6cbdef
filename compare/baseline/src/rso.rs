//! The Hotine oblique Mercator, variant A, with what depends on the parameters alone made ready once.

use crate::angle::{angles, by_code};
use crate::check::{within, ANGLE, PROJECTED, RANGE};
use crate::elementary::{
    arcsine, arctan_small, arctangent, artanh, artanh_series, artanh_small, cos, cosh, root, sin, sinh, K,
    SECONDS,
};
use crate::round::decimals;

#[derive(Clone, Copy, Debug)]
pub struct Projection {
    longitude: i64,
    e2: f64,
    b: f64,
    ln_h: f64,
    /// Sine and cosine at the natural origin, and rectified.
    natural: [f64; 2],
    rectified: [f64; 2],
    omega: f64,
    /// A/B and B/A.
    radius: f64,
    inverse_radius: f64,
    easting: f64,
    northing: f64,
    /// Of the latitude's series.
    k: [f64; 4],
}

/// The angle less a full turn where it is past 300°, if it is allowed.
fn skew(units: i64) -> Option<f64> {
    match units {
        10_800_000_000..=21_600_000_000 => Some(units as f64 * K),
        108_000_000_000..=118_800_000_000 => Some((units - 129_600_000_000) as f64 * K),
        _ => None,
    }
}

#[inline]
fn isometric(e2: f64, s: f64) -> f64 {
    artanh_small(s) - artanh_series(e2 * (s * s)) * (e2 * s)
}

impl Projection {
    /// Code, centre's latitude and longitude, azimuth, rectified angle, scale, FE, FN. 2.
    pub fn new(parameters: &[i64; 8]) -> Result<Projection, u8> {
        let [code, latitude, longitude, azimuth, rectified, scale, easting, northing] = *parameters;
        let (Some(e), Some(alpha), Some(gamma)) = (by_code(code), skew(azimuth), skew(rectified)) else {
            return Err(RANGE);
        };
        if latitude < 360_000_000
            || !angles(latitude, longitude)
            || !(99_000_000_000..=101_000_000_000).contains(&scale)
            || !within(&[easting, northing], 2_000_000_000)
        {
            return Err(RANGE);
        }
        let e2 = e.e2;
        let phi = latitude as f64 * K;
        let (s, c) = (sin(phi), cos(phi));
        let c2 = c * c;
        let m = 1.0 - e2;
        let inner = 1.0 - e2 * (s * s);
        let b = root(1.0 + e2 * (c2 * c2) / m);
        let (root_m, root_inner) = (root(m), root(inner));
        let a = e.a * b * (scale as f64 / 1e11) * root_m / inner;
        let d = b * root_m / (c * root_inner);
        let g = root_m * (s / c) / root_inner;
        let j = g / d;
        let (sin_a, cos_a) = (sin(alpha), cos(alpha));
        let i = sin_a / cos_a * j;
        let natural = [sin_a / d, cos_a * root(1.0 + i * i)];
        Ok(Projection {
            longitude,
            e2,
            b,
            ln_h: artanh_small(j) - b * isometric(e2, s),
            natural,
            rectified: [sin(gamma), cos(gamma)],
            omega: arcsine(g * (natural[0] / natural[1])) / b,
            radius: a / b,
            inverse_radius: b / a,
            easting: easting as f64 / 1000.0,
            northing: northing as f64 / 1000.0,
            k: series(e2),
        })
    }

    /// E and N in metres. 12.
    pub fn forward(&self, latitude: i64, longitude: i64) -> Result<[f64; 2], u8> {
        if !angles(latitude, longitude) {
            return Err(ANGLE);
        }
        let [sin_0, cos_0] = self.natural;
        let [sin_c, cos_c] = self.rectified;
        let ln_q = self.ln_h + self.b * isometric(self.e2, sin(latitude as f64 * K));
        let s = sinh(ln_q);
        let x = self.b * ((longitude - self.longitude) as f64 * K + self.omega);
        let across = sin(x);
        let v = -(self.radius * artanh((s * sin_0 - across * cos_0) / cosh(ln_q)));
        let u = self.radius * arctangent((s * cos_0 + across * sin_0) / cos(x));
        Ok([(v * cos_c + u * sin_c) + self.easting, (u * cos_c - v * sin_c) + self.northing])
    }

    /// Latitude and longitude. 23, 12.
    pub fn reverse(&self, easting: f64, northing: f64) -> Result<[i64; 2], u8> {
        let small = |metres: f64| metres.abs() < 10_000_000.0;
        if !small(easting) || !small(northing) {
            return Err(PROJECTED);
        }
        let [sin_0, cos_0] = self.natural;
        let [sin_c, cos_c] = self.rectified;
        let (de, dn) = (easting - self.easting, northing - self.northing);
        let theta = (de * cos_c - dn * sin_c) * self.inverse_radius;
        let mu = (dn * cos_c + de * sin_c) * self.inverse_radius;
        if theta.abs() > 1.0 || mu.abs() > 1.0 {
            return Err(ANGLE);
        }
        let (s, across) = (-sinh(theta), sin(mu));
        let l = (artanh_small((across * cos_0 + s * sin_0) / cosh(theta)) - self.ln_h) / self.b;
        let half = 0.5 * l;
        let chi = 2.0 * arctan_small(sinh(half) / cosh(half));
        let [k2, k4, k6, k8] = self.k;
        let phi =
            (((chi + sin(2.0 * chi) * k2) + sin(4.0 * chi) * k4) + sin(6.0 * chi) * k6) + sin(8.0 * chi) * k8;
        let w = -self.omega - arctangent((s * cos_0 - across * sin_0) / cos(mu)) / self.b;
        let rounded = |value: f64| decimals(value, 5).map_err(|_| ANGLE);
        let (latitude, longitude) = (rounded(phi * SECONDS)?, rounded(w * SECONDS)? + self.longitude);
        if angles(latitude, longitude) {
            Ok([latitude, longitude])
        } else {
            Err(ANGLE)
        }
    }
}

fn series(e2: f64) -> [f64; 4] {
    let e4 = e2 * e2;
    let e6 = e4 * e2;
    let e8 = e4 * e4;
    [
        ((e2 / 2.0 + 5.0 * e4 / 24.0) + e6 / 12.0) + 13.0 * e8 / 360.0,
        (7.0 * e4 / 48.0 + 29.0 * e6 / 240.0) + 811.0 * e8 / 11520.0,
        7.0 * e6 / 120.0 + 81.0 * e8 / 1120.0,
        4279.0 * e8 / 161280.0,
    ]
}

/// 2, 12.
pub fn forward(parameters: &[i64; 8], latitude: i64, longitude: i64) -> Result<[f64; 2], u8> {
    Projection::new(parameters)?.forward(latitude, longitude)
}

/// 2, 23, 12.
pub fn reverse(parameters: &[i64; 8], easting: f64, northing: f64) -> Result<[i64; 2], u8> {
    Projection::new(parameters)?.reverse(easting, northing)
}
