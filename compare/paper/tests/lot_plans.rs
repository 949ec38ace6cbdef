//! Request A14: the line, the order in which it is refused, and that it equals the existing parts one after another.

use paper::angle::{cassini_millimetres, Origin};
use paper::geodetic::geodetic;
use paper::lot_plan::lot_plan;

const E: &str = "E|2021\n";
const STEP: &str = "S|T|6|2000000|6|2006586|-15832|-4363|-9706\n";
const ARAU: &str = "P|ARAU|7|3|6|2000000|-113105165410|623631179950|71174811140\n";
const KEDAH: Origin = Origin {
    ellipsoid: 1,
    latitude: 2_149_440_000,
    longitude: 36_243_000_000,
    false_easting: 50_000,
    false_northing: -25_000,
};

fn tabs(text: &str) -> Vec<u8> {
    text.replace('|', "\t").into_bytes()
}

fn ask(chain: &str, point: &str, origin: &Origin, room: usize) -> Result<String, u8> {
    lot_plan(&tabs(chain), &tabs(point), origin, room).map(|line| line.replace('\t', "|"))
}

#[test]
fn equals_its_parts() {
    for (chain, position) in [
        (format!("{E}{STEP}"), [-113105181242, 623631175587, 71174801434]),
        (STEP.to_string(), [-113105181242, 623631175587, 71174801434]),
        (String::new(), [-113105165410, 623631179950, 71174811140]),
        (E.to_string(), [-113105165410, 623631179950, 71174811140]),
    ] {
        let [latitude, longitude, _] = geodetic(1, position).expect("in range");
        let [e, n] = cassini_millimetres(&KEDAH, latitude, longitude).expect("near");
        let line = format!("C|ARAU|7|3|{e}|{n}\n");
        for room in [200, 201, 1000] {
            assert_eq!(ask(&chain, ARAU, &KEDAH, room), Ok(line.clone()));
        }
    }
}

#[test]
fn in_the_order_they_run() {
    let number =
        |chain: &str, point: &str, origin: &Origin, room: usize| ask(chain, point, origin, room).err();
    let nowhere =
        Origin { ellipsoid: 5, latitude: -1, longitude: 0, false_easting: 1 << 40, false_northing: 0 };
    assert_eq!(number("x", "x", &nowhere, 199), Some(27));
    // The chain text's first refused line.
    for (text, refused) in [
        ("x", 18),
        ("\n", 19),
        ("x\n", 19),
        (ARAU, 19),
        ("E|2010\n", 2),
        ("E|2021\nE|2021\n", 7),
        ("S|T|6|2000000|6|2006586|-15832|-4363|-9706\nE|2010\n", 7),
        ("E|2009\nS|T|6|2000000|6|2006586|-15832|-4363|-9706\n", 25),
        ("S|V|6|2000000|7|2006586|1|2|3\n", 4),
        ("S|T|6|0|6|2006586|1|2|3\n", 3),
        ("S|T\n", 20),
        ("S|X\n", 19),
        ("S|T|6|2000000|6|2006586|1|2|03\n", 22),
        ("E|2021\nP\n", 19),
    ] {
        assert_eq!(number(text, "x", &nowhere, 200), Some(refused), "{text}");
    }
    let apart = format!("{STEP}{STEP}");
    assert_eq!(number(&apart, "x", &nowhere, 200), Some(5));
    let round = "S|T|6|2000000|6|2000000|0|0|0\n";
    assert_eq!(number(&round.repeat(9), "x", &nowhere, 200), Some(6));
    assert_eq!(
        number(&format!("{}{}", round.repeat(8), STEP.replace("2000000", "2000001")), "x", &nowhere, 200),
        Some(5)
    );
    assert_eq!(number(&round.repeat(2000), "x", &nowhere, 200), Some(6));
    assert_eq!(number(&"x".repeat(100_000), "x", &nowhere, 200), Some(18));
    // The point line, then the origin's ellipsoid, then its own numbers.
    for (point, refused) in [
        ("P", 18),
        ("S\n", 19),
        ("P|ARAU\n", 20),
        (&ARAU.replace("ARAU", "arau"), 21),
        (&ARAU.replace("|7|", "|07|"), 22),
        (&ARAU.replace("|3|", "|5|"), 2),
        (&ARAU.replace("2000000", "0"), 3),
        (&ARAU.replace("2000000", "2000001"), 9),
        (&ARAU.replace("623631179950", "1"), 10),
        (&ARAU.replace("71174811140", "9705"), 11),
        (ARAU, 2),
    ] {
        assert_eq!(number(STEP, point, &nowhere, 200), Some(refused), "{point}");
    }
    let old = "S|T|5|2000000|7|2000000|0|0|0\n";
    assert_eq!(number(&format!("E|2009\n{old}"), ARAU, &nowhere, 200), Some(25));
    assert_eq!(number("E|2009\n", ARAU, &nowhere, 200), Some(25));
    assert_eq!(number("", &ARAU.replace("623631179950", "1"), &nowhere, 200), Some(10));
    // A1's 12 before Cassini's 2 and 12; then 13.
    let origin = |e: i64, a: i64, b: i64, fe: i64| Origin {
        ellipsoid: e,
        latitude: a,
        longitude: b,
        false_easting: fe,
        false_northing: 0,
    };
    let low = ARAU.replace("623631179950", "600000000000");
    assert_eq!(number("", &low, &origin(1, -1, 0, 1 << 40), 200), Some(12));
    assert_eq!(number("", ARAU, &origin(1, -1, 0, 2_000_000_001), 200), Some(2));
    assert_eq!(number("", ARAU, &origin(1, -1, 43_200_000_000, 0), 200), Some(12));
    assert_eq!(number("", ARAU, &origin(1, 0, 43_200_000_000, 0), 200), Some(13));
    assert_eq!(number("", ARAU, &origin(4, 0, 36_243_000_000, 0), 200), None);
}
