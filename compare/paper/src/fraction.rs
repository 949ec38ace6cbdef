//! "An exact fraction, rounded once to the nearest whole number"; a half to the even one, as request A11 has it for
//! the steps' parts and rotations.

use std::cmp::Ordering;

/// The denominator is above zero; both are far below the ends of i128.
pub fn nearest(numerator: i128, denominator: i128) -> i128 {
    let below = numerator.div_euclid(denominator);
    let rest = numerator.rem_euclid(denominator);
    match (2 * rest).cmp(&denominator) {
        Ordering::Less => below,
        Ordering::Equal => below + below.rem_euclid(2),
        Ordering::Greater => below + 1,
    }
}

#[cfg(test)]
mod tests {
    use super::nearest;

    #[test]
    fn a_half_goes_to_the_even_one() {
        for (numerator, whole) in [(1, 0), (3, 2), (5, 2), (7, 4), (9, 4)] {
            assert_eq!(nearest(numerator, 2), whole);
            assert_eq!(nearest(-numerator, 2), -whole);
        }
    }

    #[test]
    fn beside_a_half() {
        assert_eq!(nearest(499, 1000), 0);
        assert_eq!(nearest(501, 1000), 1);
        assert_eq!(nearest(-499, 1000), 0);
        assert_eq!(nearest(-501, 1000), -1);
        assert_eq!(nearest(1499, 1000), 1);
        assert_eq!(nearest(2501, 1000), 3);
        assert_eq!(nearest(0, 7), 0);
    }
}
