//! Roundings without numbers wider than 64 bits: of the steps' fractions, a half to the even number; of an f64
//! to decimals, a half away from zero.

/// n / d rounded; d is above zero and below 2^62.
pub fn quotient(n: i64, d: i64) -> i64 {
    whole_and_quotient(0, n, d)
}

/// The exact w + n/d, rounded once. Rounding n/d alone goes wrong where w is odd. An n of at most 8·10^18 in size over an
/// even d below 10^15 is lifted above zero first, so that one unsigned division does: its quotient has a half rounded up.
#[inline]
pub fn whole_and_quotient(w: i64, n: i64, d: i64) -> i64 {
    const MOST: i64 = 8_000_000_000_000_000_000;
    if d % 2 == 0 && d < 1_000_000_000_000_000 && n.unsigned_abs() <= MOST as u64 {
        let lifted = MOST / d + 1;
        let u = (lifted * d + d / 2) as u64;
        let u = u.wrapping_add(n as u64);
        let q = u / d as u64;
        let nearest = w + (q as i64 - lifted);
        return nearest - i64::from(u == q * d as u64 && nearest & 1 == 1);
    }
    let floor = w + n.div_euclid(d);
    let doubled = 2 * n.rem_euclid(d);
    let up = doubled > d || (doubled == d && floor & 1 == 1);
    floor + i64::from(up)
}

/// n / d with a half away from zero; d is above zero.
#[inline]
pub fn away(n: i64, d: i64) -> i64 {
    let (whole, rest) = (n / d, (n % d).abs());
    if rest >= d - rest {
        whole + n.signum()
    } else {
        whole
    }
}

const POWERS: [u64; 6] = [1, 10, 100, 1_000, 10_000, 100_000];

/// An f64 to 0..=5 decimals; Err is 2 or 14.
#[inline]
pub fn decimals(x: f64, places: u32) -> Result<i64, u8> {
    let Some(&power) = POWERS.get(places as usize) else { return Err(2) };
    if x.is_nan() || x.abs() >= 10_000_000.0 {
        return Err(14);
    }
    let bits = x.abs().to_bits();
    let exponent = bits >> 52;
    // Below 2^-19 even five places leave less than a half; the rest has 29 to 71 binary places.
    let places_after = 1075 - exponent;
    if places_after > 71 {
        return Ok(0);
    }
    let mantissa = (bits & ((1 << 52) - 1)) | (1 << 52);
    let size = scaled(mantissa, power, places_after as u32) as i64;
    Ok(if x < 0.0 { -size } else { size })
}

/// mantissa * power / 2^shift, rounded, for 29 <= shift <= 71: the product is held in two words of which
/// the low one has 32 bits.
fn scaled(mantissa: u64, power: u64, shift: u32) -> u64 {
    let low = (mantissa & 0xffff_ffff) * power;
    let high = (mantissa >> 32) * power + (low >> 32);
    let low = low & 0xffff_ffff;
    if shift > 32 {
        // Less than a half is decided by the high word alone, since a half has no low bits.
        (high + (1 << (shift - 33))) >> (shift - 32)
    } else {
        (high << (32 - shift)) + ((low + (1 << (shift - 1))) >> shift)
    }
}
