//! Document 004's formulas as they stand there, over the library's own functions and in the right quadrant, with γ0
//! in U': what the written order of the projection is held to within a distance.

use crate::ellipsoid::by_code;
use crate::library::radians;
use crate::rso::Parameters;
use std::f64::consts::{FRAC_PI_2, FRAC_PI_4};

#[derive(Clone, Copy, Debug)]
pub struct Oblique {
    e2: f64,
    a: f64,
    b: f64,
    h: f64,
    gamma_0: f64,
    lambda_0: f64,
    gamma_c: f64,
    false_easting: f64,
    false_northing: f64,
}

/// t of a latitude in radians.
fn t(e2: f64, latitude: f64) -> f64 {
    let e = e2.sqrt();
    let es = e * latitude.sin();
    (FRAC_PI_4 - latitude / 2.0).tan() / ((1.0 - es) / (1.0 + es)).powf(e / 2.0)
}

impl Oblique {
    /// For parameters that are not refused.
    pub fn new(p: &Parameters) -> Oblique {
        let ellipsoid = by_code(p.ellipsoid).expect("one of the four codes");
        let e2 = ellipsoid.e2;
        let (phi_c, alpha_c) = (radians(p.latitude as f64), radians(p.azimuth as f64));
        let (s, c) = phi_c.sin_cos();
        let k_c = p.scale as f64 / 1e11;
        let b = (1.0 + e2 * c.powi(4) / (1.0 - e2)).sqrt();
        let a = ellipsoid.a * b * k_c * (1.0 - e2).sqrt() / (1.0 - e2 * s * s);
        let d = b * (1.0 - e2).sqrt() / (c * (1.0 - e2 * s * s).sqrt());
        let f = d + (d * d - 1.0).sqrt();
        let g = (f - 1.0 / f) / 2.0;
        let gamma_0 = (alpha_c.sin() / d).asin();
        Oblique {
            e2,
            a,
            b,
            h: f * t(e2, phi_c).powf(b),
            gamma_0,
            lambda_0: radians(p.longitude as f64) - (g * gamma_0.tan()).asin() / b,
            gamma_c: radians(p.rectified as f64),
            false_easting: p.false_easting as f64 / 1000.0,
            false_northing: p.false_northing as f64 / 1000.0,
        }
    }

    /// Latitude and longitude in radians to E and N in metres.
    pub fn forward(&self, latitude: f64, longitude: f64) -> [f64; 2] {
        let q = self.h / t(self.e2, latitude).powf(self.b);
        let (s, t) = ((q - 1.0 / q) / 2.0, (q + 1.0 / q) / 2.0);
        let across = self.b * (longitude - self.lambda_0);
        let v_ = across.sin();
        let (sin_0, cos_0) = self.gamma_0.sin_cos();
        let u_ = (s * sin_0 - v_ * cos_0) / t;
        let v = self.a * ((1.0 - u_) / (1.0 + u_)).ln() / (2.0 * self.b);
        let u = self.a * (s * cos_0 + v_ * sin_0).atan2(across.cos()) / self.b;
        let (sin_c, cos_c) = self.gamma_c.sin_cos();
        [v * cos_c + u * sin_c + self.false_easting, u * cos_c - v * sin_c + self.false_northing]
    }

    /// v' over A/B and u' over A/B.
    pub fn skewed(&self, easting: f64, northing: f64) -> [f64; 2] {
        let (de, dn) = (easting - self.false_easting, northing - self.false_northing);
        let (sin_c, cos_c) = self.gamma_c.sin_cos();
        [(de * cos_c - dn * sin_c) * self.b / self.a, (dn * cos_c + de * sin_c) * self.b / self.a]
    }

    /// The E and N that have these.
    pub fn unskewed(&self, [theta, mu]: [f64; 2]) -> [f64; 2] {
        let (v, u) = (theta * self.a / self.b, mu * self.a / self.b);
        let (sin_c, cos_c) = self.gamma_c.sin_cos();
        [v * cos_c + u * sin_c + self.false_easting, u * cos_c - v * sin_c + self.false_northing]
    }

    /// E and N in metres to latitude and longitude in radians.
    pub fn reverse(&self, easting: f64, northing: f64) -> [f64; 2] {
        let [theta, mu] = self.skewed(easting, northing);
        let q = (-theta).exp();
        let (s, t) = ((q - 1.0 / q) / 2.0, (q + 1.0 / q) / 2.0);
        let v_ = mu.sin();
        let (sin_0, cos_0) = self.gamma_0.sin_cos();
        let u_ = (v_ * cos_0 + s * sin_0) / t;
        let t_ = (self.h / ((1.0 + u_) / (1.0 - u_)).sqrt()).powf(1.0 / self.b);
        let chi = FRAC_PI_2 - 2.0 * t_.atan();
        let (e2, e4, e6, e8) = (self.e2, self.e2.powi(2), self.e2.powi(3), self.e2.powi(4));
        let latitude = chi
            + (2.0 * chi).sin() * (e2 / 2.0 + 5.0 * e4 / 24.0 + e6 / 12.0 + 13.0 * e8 / 360.0)
            + (4.0 * chi).sin() * (7.0 * e4 / 48.0 + 29.0 * e6 / 240.0 + 811.0 * e8 / 11520.0)
            + (6.0 * chi).sin() * (7.0 * e6 / 120.0 + 81.0 * e8 / 1120.0)
            + (8.0 * chi).sin() * (4279.0 * e8 / 161280.0);
        [latitude, self.lambda_0 - (s * cos_0 - v_ * sin_0).atan2(mu.cos()) / self.b]
    }
}
