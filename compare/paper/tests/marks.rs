//! Request A13: n apart, n being the chain's B and F steps, two marks can become one; more than n apart they can't.

use paper::numbers::{forward, inverse};

const PLACE: [i64; 2] = [5, 2_000_000];

fn point([x, y, z]: [i64; 3]) -> [i64; 7] {
    [1, 1, PLACE[0], PLACE[1], x, y, z]
}

/// A chain of B steps on one datum and epoch, from the convention and the seven numbers of each.
fn chain(steps: &[(char, [i64; 7])]) -> Vec<i64> {
    let row = |(convention, numbers): &(char, [i64; 7])| {
        let head = [66, *convention as i64, PLACE[0], PLACE[1], PLACE[0], PLACE[1]];
        [head.as_slice(), numbers].concat()
    };
    steps.iter().flat_map(row).collect()
}

/// Worked by hand: with s -2000000 the part is X times -0.00002. At -199999975000 it is 3999999.5, which goes to the
/// even 4000000; a unit further on it is 3999999.49998, which goes to 3999999. So the two meet; a third, another unit
/// on, doesn't.
#[test]
fn two_marks_a_unit_apart() {
    let shrink = chain(&[('P', [0, 0, 0, 0, 0, 0, -2_000_000])]);
    let along =
        |x: i64| forward(2021, &shrink, &point([x, 600_000_000_000, 50_000_000_000])).expect("accepted")[4];
    assert_eq!(along(-199_999_975_000), -199_995_975_000);
    assert_eq!(along(-199_999_974_999), -199_995_975_000);
    assert_eq!(along(-199_999_974_998), -199_995_974_999);
}

#[test]
fn eight_apart_along() {
    let steps = chain(&[
        ('P', [30318296, -24465175, -100000000, -243160, -984486, -229804, -1089844]),
        ('C', [18509959, 0, -21145373, 420617, 0, -157822, -1868327]),
        ('P', [1870628, -80964143, -99999979, 172595, 191768, -552082, -1884551]),
        ('C', [-100000000, -1179815, 68216837, -501307, -842982, 64590, -1891528]),
        ('P', [-16, 0, -12, 850069, 0, -270826, -1616775]),
        ('C', [20, 0, -19, -948234, -579222, 116628, -1402121]),
        ('C', [67429018, -99992277, 50770419, 454559, 8714, 145030, -1605735]),
        ('P', [8, -15, 20, -354519, -923, -175325, -1602412]),
    ]);
    let along = |y: i64| forward(2021, &steps, &point([-113975477597, y, 43095549867])).expect("accepted");
    assert_eq!(along(633263270046), along(633263270054));
    assert_ne!(along(633263270046), along(633263270055));
    assert_ne!(along(633263270045), along(633263270054));
}

#[test]
fn eight_apart_back() {
    let steps = chain(&[
        ('C', [0, -53514699, -100000000, 827652, 356449, -349, 1351551]),
        ('C', [-100000000, 30969053, 32565357, -703975, 836738, 423673, 1115203]),
        ('C', [100000000, -44354807, -47920254, 677688, -418458, 13170, 1298888]),
        ('C', [-6, -10, -2, 690155, -887358, 439, 1363144]),
        ('C', [51776345, 43512720, 0, -610346, 335929, -506691, 1380790]),
        ('P', [20, 11, 20, 441379, 1000000, 0, 1931337]),
        ('P', [-100000000, 15318433, -100000000, 194331, 618751, 567193, 1421216]),
        ('C', [80788112, -3143, -66573976, 78588, -998376, -345966, 1970608]),
    ]);
    let back = |z: i64| inverse(2021, &steps, &point([-164670581462, 595299341144, z])).expect("accepted");
    assert_eq!(back(73119057926), back(73119057934));
    assert_ne!(back(73119057926), back(73119057935));
    assert_ne!(back(73119057925), back(73119057934));
}
