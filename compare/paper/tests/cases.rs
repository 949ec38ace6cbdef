//! Document 01, "Proved and run": the ten cases, the run, and what the rounding rule must not be.

use paper::angle::cartesian;
use paper::numbers::{self, PointRow};
use paper::step::scaled_rotation;

/// The chains here bear no mark, so they are of 2021.
fn forward(chain: &[i64], point: &[i64]) -> Result<PointRow, u8> {
    numbers::forward(2021, chain, point)
}

fn inverse(chain: &[i64], point: &[i64]) -> Result<PointRow, u8> {
    numbers::inverse(2021, chain, point)
}

/// Carried through by every conversion.
const ORDER: i64 = 1;

/// A step of 13 numbers from its letter, its convention and the rest.
fn step(kind: char, convention: char, places: [i64; 4], numbers: &[i64]) -> Vec<i64> {
    let mut row = vec![kind as i64, convention as i64];
    row.extend(places);
    row.extend(numbers);
    row.resize(13, 0);
    row
}

fn shown(answer: Result<[i64; 7], u8>) -> [i64; 3] {
    let [_, _, _, _, x, y, z] = answer.expect("not refused");
    [x, y, z]
}

fn velocity(v: i64, thousandths: i64) -> i64 {
    let chain = step('V', ' ', [6, 2_000_000, 6, 2_000_000 + thousandths], &[v, 0, 0]);
    let x = -200_000_000_000;
    shown(forward(&chain, &[1, ORDER, 6, 2_000_000, x, 600_000_000_000, 50_000_000_000]))[0] - x
}

#[test]
fn case_1_shift() {
    let chain = step('T', ' ', [6, 2_000_000, 6, 2_006_586], &[-15832, -4363, -9706]);
    let answer = forward(&chain, &[1, ORDER, 6, 2_000_000, -113105165410, 623631179950, 71174811140]);
    assert_eq!(answer, Ok([1, ORDER, 6, 2_006_586, -113105181242, 623631175587, 71174801434]));
}

#[test]
fn case_2_velocity() {
    let chain = step('V', ' ', [7, 2_010_000, 7, 2_020_000], &[-1874, -169, -502]);
    let answer = forward(&chain, &[3, ORDER, 7, 2_010_000, -113105187354, 623631174081, 71174801667]);
    assert_eq!(answer, Ok([3, ORDER, 7, 2_020_000, -113105206094, 623631172391, 71174796647]));
}

/// As request A11 has them: 3 and 4 become 0, and V 3 over 500 thousandths gives 2.
#[test]
fn cases_3_to_5_halves() {
    assert_eq!(velocity(1, 500), 0);
    assert_eq!(velocity(-1, 500), 0);
    assert_eq!(velocity(1, 499), 0);
    assert_eq!(velocity(1, 501), 1);
    assert_eq!(velocity(3, 500), 2);
    assert_eq!(velocity(-3, 500), -2);
    assert_eq!(velocity(5, 500), 2);
    assert_eq!(velocity(3, -500), -2);
}

/// Back by the same rule: what 3 over 500 thousandths gained is what going back takes off.
#[test]
fn halves_going_back() {
    for (v, gain) in [(1, 0), (3, 2), (-3, -2), (5, 2), (-7, -4)] {
        let chain = step('V', ' ', [6, 2_000_000, 6, 2_000_500], &[v, 0, 0]);
        let x = -200_000_000_000;
        let there = [1, ORDER, 6, 2_000_500, x, 600_000_000_000, 50_000_000_000];
        assert_eq!(shown(inverse(&chain, &there))[0], x - gain);
    }
}

#[test]
fn cases_6_and_7_frame() {
    let chain = step('F', ' ', [9, 2_010_000, 10, 2_010_000], &[]);
    let from = [1, ORDER, 9, 2_010_000, -113105187200, 623631173600, 71174802510];
    let to = forward(&chain, &from).expect("not refused");
    assert_eq!(to, [1, ORDER, 10, 2_010_000, -113105187362, 623631173422, 71174802271]);
    assert_eq!(inverse(&chain, &to), Ok(from));
}

#[test]
fn cases_8_to_10_bursa_wolf() {
    let from = [1, ORDER, 3, 2_000_000, -200000000000, 600000000000, 50000000000];
    let numbers = [0, 0, 0, 0, 0, 100_000, 0];
    let chain = step('B', 'P', [3, 2_000_000, 4, 2_000_000], &numbers);
    let to = forward(&chain, &from).expect("not refused");
    assert_eq!(to[4..], [-200002908884, 599999030372, 50000000000]);
    assert_eq!(inverse(&chain, &to), Ok(from));
    let chain = step('B', 'C', [3, 2_000_000, 4, 2_000_000], &numbers);
    assert_eq!(shown(forward(&chain, &from)), [-199997091116, 600000969628, 50000000000]);
}

/// Request A7, worked by hand: rz 100000 is 484813.68, so 484814, and with s 1000000 it is 484818.85, so 484819.
/// Cases 8 to 10 have s = 0 and keep their numbers.
#[test]
fn the_scale_goes_onto_the_rotations() {
    let from = [1, ORDER, 3, 2_000_000, -200000000000, 600000000000, 50000000000];
    let numbers = [0, 0, 0, 0, 0, 100_000, 1_000_000];
    let chain = step('B', 'P', [3, 2_000_000, 4, 2_000_000], &numbers);
    let to = forward(&chain, &from).expect("not refused");
    assert_eq!(to[4..], [-200004908914, 600005030362, 50000500000]);
    assert_eq!(inverse(&chain, &to), Ok(from));
    let chain = step('B', 'C', [3, 2_000_000, 4, 2_000_000], &numbers);
    assert_eq!(shown(forward(&chain, &from)), [-199999091086, 600006969638, 50000500000]);
}

/// 64000 times 1.0000078125 is 64000.5: an exact half of the second rounding, to the even one on both sides.
#[test]
fn a_half_of_the_second_rounding() {
    assert_eq!(scaled_rotation(13201, 0), 64000);
    assert_eq!(scaled_rotation(13201, 781_250), 64000);
    assert_eq!(scaled_rotation(-13201, 781_250), -64000);
    assert_eq!(scaled_rotation(112_801, 0), 546_875);
    assert_eq!(scaled_rotation(112_801, 640_000), 546_878);
    assert_eq!(scaled_rotation(112_801, -640_000), 546_872);
    assert_eq!(scaled_rotation(13201, -781_250), 64000);
    assert_eq!(scaled_rotation(1_000_000, 2_000_000), 4_848_234);
    assert_eq!(scaled_rotation(-1_000_000, 2_000_000), -4_848_234);
}

/// The part is one fraction and its whole decides what is even: 1 + 5.5 is 6.5 and gives 6, while
/// 1 + round(5.5) would be 7.
#[test]
fn the_whole_part_is_rounded_once() {
    let from = [1, ORDER, 3, 2_000_000, -110_000_000_000, 600_000_000_000, 0];
    for (dx, gain) in [(0, 6), (1, 6), (2, 8), (-5, 0), (-6, 0), (-7, -2)] {
        let chain = step('B', 'P', [3, 2_000_000, 4, 2_000_000], &[dx, 0, 0, 0, 0, 0, -5]);
        assert_eq!(shown(forward(&chain, &from)), [-110_000_000_000 + gain, 599_999_999_970, 0]);
    }
}

#[test]
fn the_run_at_arau() {
    let metres = cartesian(1, 2322056909, 36100705076, 1807800).expect("not refused");
    let printed = [-1131051.654, 6236311.800, 711748.112];
    for (ours, theirs) in metres.iter().zip(printed) {
        assert!((ours - theirs).abs() < 0.001, "{ours} {theirs}");
    }
}

/// 6 before everything; then the first bad step's first fault; 9 not for the empty chain.
#[test]
fn orders_by_value() {
    let point = [1, ORDER, 6, 2_000_000, -200_000_000_000, 600_000_000_000, 0];
    let bad = step('?', ' ', [0, 5, 3, 0], &[]);
    assert_eq!(forward(&bad.repeat(9), &point), Err(6));
    assert_eq!(forward(&bad, &[0; 7]), Err(2));
    let three = step('T', ' ', [6, 0, 6, 2_000_000], &[]);
    let two = step('T', ' ', [6, 2_000_000, 6, 2_000_000], &[100_000_001]);
    assert_eq!(forward(&[three.clone(), two.clone()].concat(), &point), Err(3));
    assert_eq!(forward(&[two, three].concat(), &point), Err(2));
    assert_eq!(forward(&step('V', ' ', [1, 0, 1, 0], &[]), &point), Err(4));
    let away = step('T', ' ', [7, 2_000_000, 8, 2_000_000], &[]);
    assert_eq!(forward(&away.repeat(2), &point), Err(5));
    assert_eq!(forward(&away, &point), Err(9));
    assert_eq!(inverse(&away, &point), Err(9));
    assert_eq!(forward(&[], &point), Ok(point));
    assert_eq!(forward(&[], &[1, ORDER, 6, 2_000_000, -200_000_000_000, 600_000_000_000, -1]), Err(10));
    assert_eq!(forward(&[], &[1, ORDER, 6, 2_000_000, 0, 640_000_000_001, 0]), Err(2));
    assert_eq!(forward(&[], &[1, ORDER, 6, 0, 0, 0, 0]), Err(3));
    assert_eq!(forward(&[1; 12], &point), Err(255));
    assert_eq!(forward(&[], &[1; 6]), Err(255));
}

/// Request A6: 1 to 4, with the other ranges, and it comes through both ways.
#[test]
fn the_order_goes_through() {
    let chain = step('T', ' ', [6, 2_000_000, 7, 2_000_000], &[1, 2, 3]);
    let point = |order: i64, datum: i64| [9, order, datum, 2_000_000, -200_000_000_000, 600_000_000_000, 5];
    for order in 1..=4 {
        assert_eq!(forward(&chain, &point(order, 6)).expect("accepted")[..3], [9, order, 7]);
        assert_eq!(inverse(&chain, &point(order, 7)).expect("accepted")[..3], [9, order, 6]);
    }
    for order in [0, 5, -1, i64::MIN, i64::MAX] {
        assert_eq!(forward(&chain, &point(order, 6)), Err(2));
        assert_eq!(inverse(&chain, &point(order, 7)), Err(2));
    }
    assert_eq!(forward(&chain, &point(5, 8)), Err(2));
}

#[test]
fn left_the_area_after_a_step() {
    let out = step('T', ' ', [6, 2_000_000, 6, 2_000_000], &[0, 0, -1]);
    let home = step('T', ' ', [6, 2_000_000, 6, 2_000_000], &[0, 0, 1]);
    let point = [1, ORDER, 6, 2_000_000, -200_000_000_000, 600_000_000_000, 0];
    assert_eq!(forward(&[out.clone(), home.clone()].concat(), &point), Err(11));
    assert_eq!(forward(&[home, out].concat(), &point), Ok(point));
}

/// Request A10: 2009 has datums 1 to 5 and 7 and T and B steps; 25 comes just after 3, and the mark before all.
#[test]
fn jobs_under_the_2009_circular() {
    let at = |datum: i64| [1, ORDER, datum, 2_000_000, -200_000_000_000, 600_000_000_000, 5];
    let old = |chain: &[i64], point: &[i64]| numbers::forward(2009, chain, point).err().unwrap_or(0);
    let good = step('B', 'C', [3, 2_000_000, 7, 2_000_000], &[1, 2, 3, 4, 5, 6, 7]);
    assert_eq!(numbers::forward(2009, &good, &at(3)), forward(&good, &at(3)));
    assert_eq!(numbers::inverse(2009, &good, &at(7)), inverse(&good, &at(7)));
    for datum in 3..=10 {
        let refused = if [3, 4, 5, 7].contains(&datum) { 0 } else { 25 };
        assert_eq!(old(&[], &at(datum)), refused, "a point of an empty chain");
        assert_eq!(old(&step('T', ' ', [datum, 2_000_000, 3, 2_000_000], &[]), &at(datum)), refused);
        let chain = step('T', ' ', [3, 2_000_000, datum, 2_000_000], &[]);
        assert_eq!(old(&chain, &at(3)), refused);
        assert_eq!(numbers::inverse(2009, &chain, &at(datum)).err().unwrap_or(0), refused);
    }
    assert_eq!(old(&[], &[1, ORDER, 1, 0, -200_000_000_000, 600_000_000_000, 5]), 0);
    assert_eq!(old(&step('V', ' ', [3, 2_000_000, 3, 2_010_000], &[]), &at(3)), 25);
    assert_eq!(old(&step('F', ' ', [5, 2_000_000, 10, 2_000_000], &[]), &at(5)), 25);
    // 2, 3, 25, 4, 5 in a step; 2, 3, 25, 9, 10 in a point.
    assert_eq!(old(&step('V', ' ', [3, 2_000_000, 4, 2_000_000], &[]), &at(3)), 25);
    assert_eq!(old(&step('T', ' ', [3, 0, 6, 2_000_000], &[]), &at(3)), 3);
    assert_eq!(old(&step('X', ' ', [3, 0, 6, 2_000_000], &[]), &at(3)), 2);
    let apart = step('T', ' ', [6, 2_000_000, 3, 2_000_000], &[]);
    assert_eq!(old(&[good.clone(), apart].concat(), &at(3)), 25);
    assert_eq!(old(&good, &at(6)), 25);
    assert_eq!(old(&good, &[1, ORDER, 6, 2_000_000, 0, 0, 0]), 25);
    assert_eq!(old(&good, &[1, ORDER, 6, 0, 0, 0, 0]), 3);
    assert_eq!(old(&good, &at(4)), 9);
    // The year before the ninth step and before every step.
    for year in [0, 2008, 2010, 2020, -2009, i64::MIN, i64::MAX] {
        assert_eq!(numbers::forward(year, &good.repeat(9), &at(3)), Err(2));
        assert_eq!(numbers::inverse(year, &[], &at(3)), Err(2));
    }
    assert_eq!(old(&good.repeat(9), &at(3)), 6);
}

/// Request A4: 26 before all, then the direction, then the chain; each point's answer in its place, the rest as it was.
#[test]
fn a_days_points() {
    let shift = step('T', ' ', [6, 2_000_000, 7, 2_000_000], &[1, 2, 3]);
    let good = [1, 4, 6, 2_000_000, -200_000_000_000, 600_000_000_000, 5];
    let outside = [2, 1, 6, 2_000_000, 0, 600_000_000_000, 5];
    let elsewhere = [3, 2, 7, 2_000_000, -200_000_000_000, 600_000_000_000, 5];
    let points = [good, outside, elsewhere].concat();
    let ask = |year: i64, chain: &[i64], direction: i64, points: &[i64], room: usize| {
        let mut answers = vec![-7; room];
        (numbers::row(year, chain, direction, points, &mut answers), answers)
    };
    let refused = |number: i64| [number, 0, 0, 0, 0, 0, 0, 0];
    let along = [0, 1, 4, 7, 2_000_000, -199_999_999_999, 600_000_000_002, 8];
    let back = [0, 3, 2, 6, 2_000_000, -200_000_000_001, 599_999_999_998, 2];
    assert_eq!(
        ask(2021, &shift, 0, &points, 32),
        (Ok(()), [along, refused(10), refused(9), [-7; 8]].concat())
    );
    assert_eq!(ask(2021, &shift, 1, &points, 24), (Ok(()), [refused(9), refused(9), back].concat()));
    assert_eq!(ask(2021, &shift, 0, &[], 16), (Ok(()), vec![-7; 16]));
    let bad = step('T', ' ', [6, 0, 7, 2_000_000], &[]);
    for (year, chain, direction, room, number) in [
        (2010, &bad, 2, 16, 26),
        (2021, &bad, 2, 24, 2),
        (2021, &bad, -1, 24, 2),
        (2010, &bad, 0, 24, 2),
        (2021, &bad, 1, 24, 3),
        (2009, &shift, 0, 24, 25),
        (2021, &bad, 0, 17, 255),
    ] {
        assert_eq!(ask(year, chain, direction, &points, room), (Err(number), vec![-7; room]));
    }
    assert_eq!(ask(2021, &bad, 0, &[], 8), (Err(3), vec![-7; 8]));
    assert_eq!(ask(2021, &bad[1..], 0, &points, 8), (Err(255), vec![-7; 8]));
    assert_eq!(ask(2021, &bad, 0, &points[1..], 8), (Err(255), vec![-7; 8]));
}
