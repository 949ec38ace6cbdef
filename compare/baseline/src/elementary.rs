//! The polynomials and the functions over them: sine, cosine, root, arctangent, and their hyperbolic kin.

pub(crate) const K: f64 = 4.84813681109536e-11;
/// Seconds in a radian, with the digits of docs/ORDERS.md.
#[allow(clippy::excessive_precision)]
pub(crate) const SECONDS: f64 = 206264.806247096355;

const SIN: [f64; 8] = [
    -1.0 / 1307674368000.0,
    1.0 / 6227020800.0,
    -1.0 / 39916800.0,
    1.0 / 362880.0,
    -1.0 / 5040.0,
    1.0 / 120.0,
    -1.0 / 6.0,
    1.0,
];

const COS: [f64; 9] = [
    1.0 / 20922789888000.0,
    -1.0 / 87178291200.0,
    1.0 / 479001600.0,
    -1.0 / 3628800.0,
    1.0 / 40320.0,
    -1.0 / 720.0,
    1.0 / 24.0,
    -1.0 / 2.0,
    1.0,
];

const ATAN: [f64; 13] = [
    1.0 / 25.0,
    -1.0 / 23.0,
    1.0 / 21.0,
    -1.0 / 19.0,
    1.0 / 17.0,
    -1.0 / 15.0,
    1.0 / 13.0,
    -1.0 / 11.0,
    1.0 / 9.0,
    -1.0 / 7.0,
    1.0 / 5.0,
    -1.0 / 3.0,
    1.0,
];

#[inline]
fn horner(coefficients: &[f64], y: f64) -> f64 {
    coefficients[1..].iter().fold(coefficients[0], |sum, c| sum * y + c)
}

#[inline]
pub(crate) fn sin(x: f64) -> f64 {
    horner(&SIN, x * x) * x
}

#[inline]
pub(crate) fn cos(x: f64) -> f64 {
    horner(&COS, x * x)
}

/// For arguments near 1.
#[inline]
pub(crate) fn root(x: f64) -> f64 {
    let r = 0.5 * (1.0 + x);
    let r = 0.5 * (r + x / r);
    let r = 0.5 * (r + x / r);
    0.5 * (r + x / r)
}

#[inline]
pub(crate) fn arctan_small(x: f64) -> f64 {
    horner(&ATAN, x * x) * x
}

#[inline]
pub(crate) fn arctangent(x: f64) -> f64 {
    2.0 * arctan_small(x / (1.0 + root(1.0 + x * x)))
}

#[inline]
pub(crate) fn arcsine(x: f64) -> f64 {
    2.0 * arctan_small(x / (1.0 + root(1.0 - x * x)))
}

#[inline]
pub(crate) fn sinh(x: f64) -> f64 {
    horner(&SIN, -(x * x)) * x
}

#[inline]
pub(crate) fn cosh(x: f64) -> f64 {
    horner(&COS, -(x * x))
}

/// The arctangent's polynomial at -y: for y = x·x, artanh without its last factor.
#[inline]
pub(crate) fn artanh_series(y: f64) -> f64 {
    horner(&ATAN, -y)
}

#[inline]
pub(crate) fn artanh_small(x: f64) -> f64 {
    artanh_series(x * x) * x
}

#[inline]
pub(crate) fn artanh(x: f64) -> f64 {
    2.0 * artanh_small(x / (1.0 + root(1.0 - x * x)))
}
