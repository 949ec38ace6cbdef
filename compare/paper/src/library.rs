//! Other methods for the same quantities, over the library's own functions and not in any written order: what
//! the written orders are held to within a distance.

use crate::ellipsoid::Ellipsoid;

/// Radians in so many units of 0.00001".
pub fn radians(units: f64) -> f64 {
    (units / 100000.0 / 3600.0).to_radians()
}

/// Latitude and longitude in radians, height in metres.
#[derive(Clone, Copy, Debug)]
pub struct Place {
    pub latitude: f64,
    pub longitude: f64,
    pub height: f64,
}

impl Place {
    pub fn from_units([latitude, longitude, height]: [i64; 3]) -> Place {
        Place {
            latitude: radians(latitude as f64),
            longitude: radians(longitude as f64),
            height: height as f64 / 100000.0,
        }
    }
}

fn prime_vertical(e: Ellipsoid, latitude: f64) -> f64 {
    let s = latitude.sin();
    e.a / (1.0 - e.e2 * s * s).sqrt()
}

/// X, Y, Z in metres.
pub fn cartesian(e: Ellipsoid, at: Place) -> [f64; 3] {
    let nu = prime_vertical(e, at.latitude);
    let across = (nu + at.height) * at.latitude.cos();
    let z = (nu * (1.0 - e.e2) + at.height) * at.latitude.sin();
    [across * at.longitude.cos(), across * at.longitude.sin(), z]
}

/// X, Y, Z in metres to the place, by iteration: the height that the latitude gives, then the latitude that
/// the height gives, until nothing moves.
pub fn geodetic(e: Ellipsoid, [x, y, z]: [f64; 3]) -> Place {
    let p = x.hypot(y);
    let mut at = Place { latitude: z.atan2(p * (1.0 - e.e2)), longitude: y.atan2(x), height: 0.0 };
    for _ in 0..100 {
        let nu = prime_vertical(e, at.latitude);
        at.height = p / at.latitude.cos() - nu;
        let next = z.atan2(p * (1.0 - e.e2 * nu / (nu + at.height)));
        let moved = (next - at.latitude).abs();
        at.latitude = next;
        if moved < 1e-17 {
            break;
        }
    }
    at.height = p / at.latitude.cos() - prime_vertical(e, at.latitude);
    at
}

/// Metres between two places that are near each other, along the meridian, the parallel and the height.
pub fn apart(e: Ellipsoid, one: Place, other: Place) -> f64 {
    let nu = prime_vertical(e, one.latitude);
    let s = one.latitude.sin();
    let meridian = nu * (1.0 - e.e2) / (1.0 - e.e2 * s * s);
    let north = (one.latitude - other.latitude) * (meridian + one.height);
    let east = (one.longitude - other.longitude) * (nu + one.height) * one.latitude.cos();
    let up = one.height - other.height;
    north.hypot(east).hypot(up)
}
