//! RSO: the examples that documents 000, 001 and 004 print, and every refusal by every cause.

use super::angles::bits;
use crate::compare::{Comparison, Mismatch, Outcome};
use crate::gen::rso::{BORNEO, PENINSULA, TIMBALAI};
use crate::subject::{Answer, Subject};
use paper::oblique::Oblique;
use paper::rso::Parameters;

/// A printed example: how near it is to be met is half its last digit, or a centimetre for document 004's.
struct Printed {
    parameters: [i64; 8],
    at: [i64; 2],
    metres: [f64; 2],
    near: f64,
}

const fn example(parameters: [i64; 8], at: [i64; 2], metres: [f64; 2], near: f64) -> Printed {
    Printed { parameters, at, metres, near }
}

/// Document 004's, then (iii), (iv), (v) and (viii) of documents 000 and 001. Their (vi) is left out: no parameters
/// are printed that give it.
const PRINTED: [Printed; 5] = [
    example(TIMBALAI, [1_939_411_290, 41_689_981_960], [679245.73, 596562.78], 0.01),
    example(PENINSULA, [2_210_298_682, 36_138_656_827], [266843.634, 679690.850], 0.0005),
    example(PENINSULA, [2_210_298_892, 36_138_657_684], [266843.898, 679690.914], 0.0005),
    example(BORNEO, [2_476_245_022, 42_064_758_835], [793704.631, 762081.047], 0.0005),
    example(TIMBALAI, [2_476_604_669, 42_063_760_565], [793326.383, 762132.514], 0.0005),
];

/// Forward within the printed digits, and the printed E and N back to the angles within as much: a metre is about
/// 3,240 units.
pub fn printed(c: &mut Comparison) -> Outcome {
    for Printed { parameters, at: [latitude, longitude], metres, near } in PRINTED {
        for subject in c.all() {
            let there = subject.rso_forward(&parameters, latitude, longitude);
            let home = subject.rso_reverse(&parameters, metres[0], metres[1]);
            let good = there.is_ok_and(|m| (0..2).all(|i| (m[i] - metres[i]).abs() <= near))
                && home.is_ok_and(|h| {
                    (h[0] - latitude).abs().max((h[1] - longitude).abs()) as f64 <= near * 3300.0 + 1.0
                });
            if !good {
                let name = subject.name();
                return Err(Mismatch(format!(
                    "printed example {metres:?}: {name} gives {there:?}, back {home:?}"
                )));
            }
        }
    }
    Ok(())
}

const POINT: [i64; 2] = [1_939_411_290, 41_689_981_960];
const METRES: [f64; 2] = [679245.73, 596562.78];

pub fn causes(c: &mut Comparison) -> Outcome {
    parameters(c)?;
    angles(c)?;
    too_large(c)?;
    outside(c)?;
    gate(c)
}

/// 2 by each parameter on each side, before 12 and 23; and each end is allowed.
fn parameters(c: &mut Comparison) -> Outcome {
    let turn = 129_600_000_000;
    let outside: [(usize, &[i64]); 8] = [
        (0, &[0, 5, -1]),
        (1, &[359_999_999, 2_880_000_001, 0]),
        (2, &[35_639_999_999, 43_200_000_001, 0]),
        (
            3,
            &[
                10_799_999_999,
                21_600_000_001,
                107_999_999_999,
                118_800_000_001,
                -21_600_000_000,
                10_800_000_000 + turn,
            ],
        ),
        (
            4,
            &[
                10_799_999_999,
                21_600_000_001,
                107_999_999_999,
                118_800_000_001,
                -10_800_000_000,
                64_800_000_000,
            ],
        ),
        (5, &[98_999_999_999, 101_000_000_001, 0]),
        (6, &[-2_000_000_001, 2_000_000_001]),
        (7, &[-2_000_000_001, 2_000_000_001]),
    ];
    for (place, values) in outside {
        for value in values.iter().chain(&[i64::MIN, i64::MAX]) {
            let mut bad = TIMBALAI;
            bad[place] = *value;
            forward(c, bad, POINT, Some(2))?;
            forward(c, bad, [-1, i64::MAX], Some(2))?;
            reverse(c, bad, METRES, Some(2))?;
            reverse(c, bad, [f64::NAN, 1e7], Some(2))?;
        }
    }
    let ends: [(usize, &[i64]); 8] = [
        (0, &[1, 2, 3, 4]),
        (1, &[360_000_000, 2_880_000_000]),
        (2, &[35_640_000_000, 43_200_000_000]),
        (3, &[10_800_000_000, 21_600_000_000, 108_000_000_000, 118_800_000_000]),
        (4, &[10_800_000_000, 21_600_000_000, 108_000_000_000, 118_800_000_000]),
        (5, &[99_000_000_000, 101_000_000_000]),
        (6, &[-2_000_000_000, 2_000_000_000]),
        (7, &[-2_000_000_000, 2_000_000_000]),
    ];
    for (place, values) in ends {
        for value in values {
            let mut good = TIMBALAI;
            good[place] = *value;
            forward(c, good, POINT, None)?;
        }
    }
    Ok(())
}

/// Forward's 12 by each angle on each side.
fn angles(c: &mut Comparison) -> Outcome {
    for latitude in [-1, 2_880_000_001, i64::MIN, i64::MAX] {
        forward(c, TIMBALAI, [latitude, POINT[1]], Some(12))?;
    }
    for longitude in [35_639_999_999, 43_200_000_001, i64::MIN, i64::MAX] {
        forward(c, TIMBALAI, [POINT[0], longitude], Some(12))?;
    }
    for corner in [
        [0, 35_640_000_000],
        [0, 43_200_000_000],
        [2_880_000_000, 35_640_000_000],
        [2_880_000_000, 43_200_000_000],
    ] {
        forward(c, TIMBALAI, corner, None)?;
    }
    Ok(())
}

/// 23 for E or N alone, before 12; the number just below 10,000,000 is only 12.
fn too_large(c: &mut Comparison) -> Outcome {
    let limit = 10_000_000.0_f64;
    let below = f64::from_bits(limit.to_bits() - 1);
    let above = f64::from_bits(limit.to_bits() + 1);
    for size in [f64::NAN, f64::INFINITY, f64::MAX, limit, above] {
        for value in [size, -size] {
            for other in [METRES[0], below, value] {
                reverse(c, TIMBALAI, [value, other], Some(23))?;
                reverse(c, TIMBALAI, [other, value], Some(23))?;
            }
        }
    }
    for value in [below, -below] {
        for other in [METRES[0], value, -value] {
            reverse(c, TIMBALAI, [value, other], Some(12))?;
            reverse(c, TIMBALAI, [other, value], Some(12))?;
        }
    }
    Ok(())
}

/// The reverse's 12 on each side of each range, a unit out; a unit in is answered, and so is the end.
fn outside(c: &mut Comparison) -> Outcome {
    let ends: [(usize, i64, i64); 4] =
        [(0, 0, -1), (0, 2_880_000_000, 1), (1, 35_640_000_000, -1), (1, 43_200_000_000, 1)];
    for parameters in [TIMBALAI, BORNEO, PENINSULA] {
        let oblique = Oblique::new(&Parameters::new(parameters));
        for (place, end, out) in ends {
            for (value, number) in [(end - out, None), (end, None), (end + out, Some(12))] {
                let mut at = [1_440_000_000_i64, 39_600_000_000];
                at[place] = value;
                let [latitude, longitude] = at.map(|units| paper::library::radians(units as f64));
                reverse(c, parameters, oblique.forward(latitude, longitude), number)?;
            }
        }
    }
    Ok(())
}

/// The gate's four sides, and the far side of the earth, which a plain arctangent would bring into the ranges.
fn gate(c: &mut Comparison) -> Outcome {
    let oblique = Oblique::new(&Parameters::new(TIMBALAI));
    for skewed in [
        [1.01, 0.1],
        [-1.01, 0.1],
        [0.1, 1.01],
        [0.1, -1.01],
        [0.99, 0.1],
        [-0.99, 0.1],
        [0.1, 0.99],
        [0.1, -0.99],
    ] {
        reverse(c, TIMBALAI, oblique.unskewed(skewed), Some(12))?;
    }
    let far = [
        3,
        2_880_000_000,
        35_640_000_000,
        21_600_000_000,
        14_001_804_760,
        99_000_000_000,
        2_000_000_000,
        2_000_000_000,
    ];
    reverse(c, far, [-9_790_000.0, -9_600_000.0], Some(12))
}

/// Some number is the refusal that must come; none says that there is an answer.
fn decide<T: std::fmt::Debug>(what: &str, given: &Answer<T>, number: Option<u8>) -> Outcome {
    if given.as_ref().err().copied() == number {
        return Ok(());
    }
    Err(Mismatch(format!("causes, {what}: independent {given:?}, not {number:?}")))
}

fn forward(
    c: &Comparison,
    parameters: [i64; 8],
    [latitude, longitude]: [i64; 2],
    number: Option<u8>,
) -> Outcome {
    let what = format!("RSO forward {parameters:?} {latitude} {longitude}");
    let given = bits(c.reference.rso_forward(&parameters, latitude, longitude));
    decide(&what, &given, number)?;
    c.hold("causes", || what.clone(), &given, |s| bits(s.rso_forward(&parameters, latitude, longitude)))
}

fn reverse(
    c: &Comparison,
    parameters: [i64; 8],
    [easting, northing]: [f64; 2],
    number: Option<u8>,
) -> Outcome {
    let what = format!("RSO reverse {parameters:?} {easting:?} {northing:?}");
    let given = c.reference.rso_reverse(&parameters, easting, northing);
    decide(&what, &given, number)?;
    c.hold("causes", || what.clone(), &given, |s| s.rso_reverse(&parameters, easting, northing))
}
