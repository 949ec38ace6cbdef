//! Sine and cosine as document 01 prints them: Horner in x·x, signs alternating so that the last is +1.

/// 1.0 divided by the factorial. Factorials up to 16! are whole f64 without rounding.
fn reciprocal_factorial(n: u64) -> f64 {
    1.0 / ((1..=n).product::<u64>() as f64)
}

/// From the coefficient of the highest order down to the last, which has the sign +.
fn alternating(square: f64, orders: &[u64]) -> f64 {
    let mut sum = 0.0;
    for (place, &order) in orders.iter().enumerate() {
        let from_the_end = orders.len() - 1 - place;
        let sign = if from_the_end.is_multiple_of(2) { 1.0 } else { -1.0 };
        let coefficient = sign * reciprocal_factorial(order);
        sum = if place == 0 { coefficient } else { sum * square + coefficient };
    }
    sum
}

/// The sine's table at y.
pub fn ps(y: f64) -> f64 {
    alternating(y, &[15, 13, 11, 9, 7, 5, 3, 1])
}

/// The cosine's table at y.
pub fn pc(y: f64) -> f64 {
    alternating(y, &[16, 14, 12, 10, 8, 6, 4, 2, 0])
}

pub fn sin(x: f64) -> f64 {
    ps(x * x) * x
}

pub fn cos(x: f64) -> f64 {
    pc(x * x)
}
