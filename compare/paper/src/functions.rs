//! docs/ORDERS.md, section 3: the functions that the papers leave to us, each in its written order.

use crate::series::{pc, ps};

/// Horner's rule: the first coefficient; then what is there times y, plus the next.
pub fn horner(coefficients: &[f64], y: f64) -> f64 {
    let mut sum = coefficients[0];
    for coefficient in &coefficients[1..] {
        sum = sum * y + coefficient;
    }
    sum
}

/// 1.0 divided by the odd number, then the sign.
const PA: [f64; 13] = [
    1.0 / 25.0,
    -(1.0 / 23.0),
    1.0 / 21.0,
    -(1.0 / 19.0),
    1.0 / 17.0,
    -(1.0 / 15.0),
    1.0 / 13.0,
    -(1.0 / 11.0),
    1.0 / 9.0,
    -(1.0 / 7.0),
    1.0 / 5.0,
    -(1.0 / 3.0),
    1.0,
];

pub fn pa(y: f64) -> f64 {
    horner(&PA, y)
}

/// Heron's rule, three steps from (1 + x)/2.
pub fn root(x: f64) -> f64 {
    let r0 = 0.5 * (1.0 + x);
    let r1 = 0.5 * (r0 + x / r0);
    let r2 = 0.5 * (r1 + x / r1);
    0.5 * (r2 + x / r2)
}

pub fn arctan_small(x: f64) -> f64 {
    pa(x * x) * x
}

pub fn arctangent(x: f64) -> f64 {
    2.0 * arctan_small(x / (1.0 + root(1.0 + x * x)))
}

/// (Q - 1/Q)/2 with Q = e^x: the sine's table at -(x·x).
pub fn sinh(x: f64) -> f64 {
    ps(-(x * x)) * x
}

/// (Q + 1/Q)/2 with Q = e^x: the cosine's table at -(x·x).
pub fn cosh(x: f64) -> f64 {
    pc(-(x * x))
}

/// Half the logarithm of (1 + x)/(1 - x), near 0.
pub fn artanh_small(x: f64) -> f64 {
    pa(-(x * x)) * x
}

pub fn artanh(x: f64) -> f64 {
    2.0 * artanh_small(x / (1.0 + root(1.0 - x * x)))
}

pub fn arcsine(x: f64) -> f64 {
    2.0 * arctan_small(x / (1.0 + root(1.0 - x * x)))
}
