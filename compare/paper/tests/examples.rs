//! The stored answers of the examples in C, worked out again.

use paper::angle::Origin;
use paper::decimal::round;
use paper::geodetic::geodetic;
use paper::lot_plan::lot_plan;
use paper::numbers;
use paper::rso::{self, Parameters};

/// The text stands among what the examples in C print.
#[track_caller]
fn stored(text: &str) {
    let stored = include_str!("../../../tests/examples/run-c.out");
    assert!(stored.contains(text), "{text}\nis not in\n{stored}");
}

/// Units of 0.00001" as degrees, minutes and seconds.
fn angle(units: i64, side: char) -> String {
    let (degrees, minutes, seconds) =
        (units / 360_000_000, units % 360_000_000 / 6_000_000, units % 6_000_000);
    format!("\t{degrees} {minutes:02} {:02}.{:05} {side}", seconds / 100_000, seconds % 100_000)
}

fn to_angles(name: &str, ellipsoid: i64, position: [i64; 3]) -> String {
    match geodetic(ellipsoid, position) {
        Err(number) => format!("{name}\trefused: {number}\n"),
        Ok([latitude, longitude, height]) => {
            let sign = if height < 0 { "-" } else { "" };
            let size = height.abs();
            let height = format!("\t{sign}{}.{:05} m", size / 100_000, size % 100_000);
            format!("{name}{}{}{height}\n", angle(latitude, 'N'), angle(longitude, 'E'))
        }
    }
}

#[test]
fn from_cartesian_to_angles() {
    let arau = [-113105165410, 623631179950, 71174811140];
    let text = [
        to_angles("ARAU", 1, arau),
        to_angles("ARAU, GDM2020", 1, [-113105206217, 623631172148, 71174796538]),
        to_angles("Borneo", 4, [-276398702963, 571618000733, 59479137213]),
        to_angles("X and Y changed about", 1, [arau[1], arau[0], arau[2]]),
        to_angles("ellipsoid 5", 5, arau),
        to_angles("ten kilometres up", 1, [-113282169451, 624607132201, 71286946915]),
    ];
    stored(&text.concat());
}

fn on_rso(name: &str, parameters: [i64; 8], latitude: i64, longitude: i64) -> String {
    let parameters = Parameters::new(parameters);
    let [easting, northing] = rso::forward(&parameters, latitude, longitude).expect("accepted");
    let [a, b] = rso::reverse(&parameters, easting, northing).expect("accepted");
    let metres = |value: f64| {
        let millimetres = round(value, 3).expect("not too large");
        format!("{}.{:03}", millimetres / 1000, millimetres % 1000)
    };
    format!("{name}\tE {}\tN {}\tback {a}\t{b}\n", metres(easting), metres(northing))
}

#[test]
fn onto_rso_and_back() {
    let peninsula = [1, 1440000000, 36810000000, 116289286728, 116326836850, 99984000000, 804671000, 0];
    let borneo = [1, 1440000000, 41400000000, 19193691582, 19126836850, 99984000000, 0, 0];
    let timbalai = [4, 1440000000, 41400000000, 19193695370, 19126836850, 99984000000, 0, 0];
    let too_far = rso::reverse(&Parameters::new(peninsula), 255348.368, 71407290.30);
    let text = [
        on_rso("ARAU", peninsula, 2322056909, 36100705076),
        on_rso("Sabah", borneo, 2476245022, 42064758835),
        on_rso("document 004", timbalai, 1939411290, 41689981960),
        format!("too far\trefused: {}\n", too_far.expect_err("23")),
    ];
    stored(&text.concat());
}

#[test]
fn between_the_nodes_of_a_grid() {
    let grid = "G|2310000000|36090000000|2|3|5\n1790|-540|-10\n1802|-538|-12\n1811|-533|-9\n\
        1795|-546|-11\n1808|-541|-10\n-\n"
        .replace('|', "\t");
    let ask = |text: &str, at: [i64; 2]| paper::grid::velocity(text.as_bytes(), at, 7, [2010000, 2020000]);
    let ([e, n, u], step) = ask(&grid, [2322056909, 36100705076]).expect("a step");
    let row = numbers::step_row(&step);
    let arau = [1, 1, 7, 2010000, -113105187354, 623631174081, 71174801667];
    let there = numbers::forward(2021, &row, &arau).expect("accepted");
    let refused = |text: &str, at: [i64; 2]| ask(text, at).expect_err("refused");
    let text = [
        format!("ARAU\teast {e}\tnorth {n}\tup {u}\n"),
        format!("S\tV\t{}\n", row[2..9].iter().map(i64::to_string).collect::<Vec<_>>().join("\t")),
        format!("ARAU, 2020.0\t{}\t{}\t{}\n", there[4], there[5], there[6]),
        format!("no value\trefused: {}\n", refused(&grid, [2322056909, 36130000000])),
        format!("off the grid\trefused: {}\n", refused(&grid, [2350000000, 36100705076])),
        format!("a line missing\trefused: {}\n", refused(&grid[..grid.len() - 2], [0, 0])),
    ];
    stored(&text.concat());
}

#[test]
fn over_the_radio() {
    let sheet = include_bytes!("../../../examples/radio.sheet");
    let answers = paper::sheet::sheet(sheet);
    stored(&String::from_utf8(answers).expect("ASCII"));
}

const ARAU_CHAIN: [i64; 52] = [
    84, 0, 6, 2000000, 6, 2006586, -15832, -4363, -9706, 0, 0, 0, 0, //
    86, 0, 6, 2006586, 6, 2010000, -1876, -90, -684, 0, 0, 0, 0, //
    70, 0, 6, 2010000, 10, 2010000, 0, 0, 0, 0, 0, 0, 0, //
    86, 0, 10, 2010000, 10, 2020000, -1874, -169, -502, 0, 0, 0, 0,
];

#[test]
fn a_days_marks() {
    let marks = [
        ("ARAU", [1, 1, 6, 2000000, -113105165410, 623631179950, 71174811140]),
        ("PEG-1", [2, 4, 5, 2000000, -113105165410, 623631179950, 71174811140]),
        ("PEG-2", [1, 4, 6, 2000000, -113104712345, 623631254321, 71174899999]),
        ("PEG-3", [1, 3, 6, 2000000, 623631179950, -113105165410, 71174811140]),
    ];
    let mut text = String::new();
    for (name, mark) in marks {
        let answer = match numbers::forward(2021, &ARAU_CHAIN, &mark) {
            Ok(there) => there.map(|number| format!("\t{number}")).concat(),
            Err(number) => format!("\trefused: {number}"),
        };
        text += &format!("{name}{answer}\n");
    }
    let there = numbers::forward(2021, &ARAU_CHAIN, &marks[2].1).expect("accepted");
    let home = numbers::inverse(2021, &ARAU_CHAIN, &there).expect("accepted");
    stored(&format!("{text}PEG-2 back\t{}\t{}\t{}\nrefused: 26\n", home[4], home[5], home[6]));
    let (mut converted, mut sums) = (0, [0; 3]);
    for i in 0..2000 {
        let datum = if i % 400 == 0 { 5 } else { 6 };
        let metres = i * 100_000;
        let mark =
            [1, 4, datum, 2000000, -113105165410 + metres, 623631179950 + metres, 71174811140 + metres];
        if let Ok(there) = numbers::forward(2021, &ARAU_CHAIN, &mark) {
            converted += 1;
            (0..3).for_each(|j| sums[j] += there[4 + j]);
        }
    }
    let [x, y, z] = sums;
    stored(&format!("2000 marks\t{converted} converted\t{x}\t{y}\t{z}\n"));
}

/// ARAU's chain to GDM2020, as the examples of the lot plan have it, and the origin of Kedah and Perlis.
fn arau_chain() -> String {
    "E|2021\nS|T|6|2000000|6|2006586|-15832|-4363|-9706\nS|V|6|2006586|6|2010000|-1876|-90|-684\n\
        S|F|6|2010000|10|2010000\nS|V|10|2010000|10|2020000|-1874|-169|-502\n"
        .replace('|', "\t")
}

const KEDAH: Origin = Origin {
    ellipsoid: 1,
    latitude: 2147282155,
    longitude: 36229093860,
    false_easting: 0,
    false_northing: 0,
};

fn lot(chain: &str, point: &str, origin: &Origin) -> String {
    match lot_plan(chain.as_bytes(), point.as_bytes(), origin, 200) {
        Ok(line) => line,
        Err(number) => format!("refused: {number}\n"),
    }
}

#[test]
fn lines_of_a_lot_plan() {
    let chain = arau_chain();
    let show = |point: &str| lot(&chain, &point.replace('|', "\t"), &KEDAH);
    let text = [
        show("P|ARAU|1|1|6|2000000|-113105165410|623631179950|71174811140\n"),
        show("P|PEG-2|1|4|6|2000000|-113104712345|623631254321|71174899999\n"),
        show("P|PEG-1|2|4|5|2000000|-113105165410|623631179950|71174811140\n"),
        show("P|PEG-3|1|6|2000000|-113105165410|623631179950|71174811140\n"),
    ];
    stored(&text.concat());
}

#[test]
fn a_small_job_tracker() {
    let (chain, point) = (arau_chain(), "P|ARAU|1|1|6|2000000|-113105165410|623631179950|71174811140\n");
    let point = point.replace('|', "\t");
    let sheet = format!("{chain}{point}");
    let converted = String::from_utf8(paper::sheet::sheet(sheet.as_bytes())).expect("ASCII");
    let south = Origin { latitude: -KEDAH.latitude, ..KEDAH };
    let text = [
        format!("lot\t{}", lot(&chain, &point, &KEDAH)),
        format!("at the end\t{converted}"),
        format!("a point in the chain\t{}", lot(&sheet, &point, &KEDAH)),
        format!("no line feed\t{}", lot(&chain, point.trim_end(), &KEDAH)),
        format!("origin in the south\t{}", lot(&chain, &point, &south)),
    ];
    stored(&text.concat());
}
