//! Document 01, "Units and ranges". All ends are allowed.

/// X, Y, Z in units of 0.00001 m.
pub type Position = [i64; 3];

pub fn between(value: i64, low: i64, high: i64) -> bool {
    low <= value && value <= high
}

/// "within N" in the table: from -N to N.
pub fn within(value: i64, size: i64) -> bool {
    between(value, -size, size)
}

pub fn all_within(values: &[i64], size: i64) -> bool {
    values.iter().all(|&value| within(value, size))
}

pub fn as_given(position: &Position) -> bool {
    all_within(position, 640_000_000_000)
}

pub fn in_area(position: &Position) -> bool {
    let [x, y, z] = *position;
    between(x, -330_000_000_000, -90_000_000_000)
        && between(y, 540_000_000_000, 640_000_000_000)
        && between(z, 0, 90_000_000_000)
}

pub fn shift(values: &[i64; 3]) -> bool {
    all_within(values, 100_000_000)
}

pub fn rotation(values: &[i64; 3]) -> bool {
    all_within(values, 1_000_000)
}

pub fn scale(value: i64) -> bool {
    within(value, 2_000_000)
}

pub fn velocity(values: &[i64; 3]) -> bool {
    all_within(values, 10_000)
}

pub fn datum(value: i64) -> bool {
    between(value, 1, 10)
}

/// Thousandths of a year, or 0 for none.
pub fn epoch(value: i64) -> bool {
    value == 0 || between(value, 1_980_000, 2_100_000)
}

pub fn issue(value: i64) -> bool {
    between(value, 1, 65_535)
}

/// Request A6: the order of control.
pub fn order(value: i64) -> bool {
    between(value, 1, 4)
}

/// Units of 0.00001".
pub fn latitude(value: i64) -> bool {
    between(value, 0, 2_880_000_000)
}

pub fn longitude(value: i64) -> bool {
    between(value, 35_640_000_000, 43_200_000_000)
}

pub fn height(value: i64) -> bool {
    between(value, -50_000_000, 900_000_000)
}

/// FE and FN in millimetres.
pub fn false_origin(value: i64) -> bool {
    within(value, 2_000_000_000)
}

/// The centre of an oblique Mercator projection.
pub fn centre(latitude: i64, longitude: i64) -> bool {
    between(latitude, 360_000_000, 2_880_000_000) && between(longitude, 35_640_000_000, 43_200_000_000)
}

/// An azimuth or rectified angle: 30° to 60°, or 300° to 330°.
pub fn skew(value: i64) -> bool {
    between(value, 10_800_000_000, 21_600_000_000) || between(value, 108_000_000_000, 118_800_000_000)
}

/// A projection's scale in 10^-11: 0.99 to 1.01.
pub fn projection_scale(value: i64) -> bool {
    between(value, 99_000_000_000, 101_000_000_000)
}
