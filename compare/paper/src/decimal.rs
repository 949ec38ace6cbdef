//! Document 01, "Rounding": an f64 to a whole number of decimals, exactly.

use crate::refusal::{unless, Refusal, FLOAT, RANGE};

/// The whole number nearest the f64's exact value times ten to the places, half away from zero.
pub fn round(x: f64, places: u32) -> Result<i64, Refusal> {
    unless(places <= 5, RANGE)?;
    unless(x.is_finite() && x.abs() < 10_000_000.0, FLOAT)?;
    let size = nearest_size(x, 10_u128.pow(places)) as i64;
    Ok(if x < 0.0 { -size } else { size })
}

/// |x| is mantissa / 2^halvings exactly, with mantissa below 2^53. Since |x| is below 2^24, halvings is
/// at least 29 for a normal number. The product is below 2^53 * 2^17 = 2^70, so that more than 72
/// halvings leave less than a quarter.
fn nearest_size(x: f64, factor: u128) -> u128 {
    let bits = x.to_bits();
    let field = (bits >> 52) & 0x7ff;
    let below = u128::from(bits & ((1 << 52) - 1));
    let (mantissa, halvings) = if field == 0 { (below, 1074) } else { (below + (1 << 52), 1075 - field) };
    if halvings > 72 {
        return 0;
    }
    let denominator = 1_u128 << halvings;
    (2 * mantissa * factor + denominator) / (2 * denominator)
}

#[cfg(test)]
mod tests {
    use super::round;

    #[test]
    fn ties_and_zeros() {
        assert_eq!(round(0.5, 0), Ok(1));
        assert_eq!(round(-0.5, 0), Ok(-1));
        assert_eq!(round(2.5, 0), Ok(3));
        assert_eq!(round(0.49999999999999994, 0), Ok(0));
        assert_eq!(round(0.0, 5), Ok(0));
        assert_eq!(round(-0.0, 5), Ok(0));
        assert_eq!(round(f64::MIN_POSITIVE / 2.0, 5), Ok(0));
        assert_eq!(round(0.000005, 5), Ok(1));
        assert_eq!(round(0.000015, 5), Ok(2));
        // The f64 nearest 2.675 and 8.000005 lie below them.
        assert_eq!(round(2.675, 2), Ok(267));
        assert_eq!(round(8.000005, 5), Ok(800000));
        assert_eq!(round(0.0625, 3), Ok(63));
    }

    #[test]
    fn refusals() {
        let below = f64::from_bits(10_000_000.0_f64.to_bits() - 1);
        assert_eq!(round(10_000_000.0, 3), Err(14));
        assert_eq!(round(-10_000_000.0, 3), Err(14));
        assert_eq!(round(below, 0), Ok(10_000_000));
        assert_eq!(round(below, 5), Ok(1_000_000_000_000));
        assert_eq!(round(f64::NAN, 0), Err(14));
        assert_eq!(round(f64::NEG_INFINITY, 0), Err(14));
        assert_eq!(round(f64::NAN, 6), Err(2));
    }
}
