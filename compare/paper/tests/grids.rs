//! Request A9: grids by hand, their faults, and the turn to X, Y, Z.

use paper::grid::{parts, read, turned, velocity, Grid, Refused};
use paper::step::Kind;

const M: i64 = 30_000_000;
const CORNER: [i64; 2] = [1_440_000_000, 36_720_000_000];

fn tabs(text: &str) -> Vec<u8> {
    text.replace('|', "\t").into_bytes()
}

fn text(header: &str, nodes: &[&str]) -> Vec<u8> {
    tabs(&format!("{header}\n{}", nodes.iter().map(|node| format!("{node}\n")).collect::<String>()))
}

/// Three rows of three; the node in the north-east has no value.
fn grid() -> Grid {
    let nodes = ["0|0|0", "10|-10|1", "20|0|3", "100|5|-3", "110|-5|0", "120|1|2", "200|0|0", "210|0|1", "-"];
    read(&text("G|1440000000|36720000000|3|3|5", &nodes)).expect("a grid")
}

fn at(north: i64, east: i64) -> Result<[i64; 3], u8> {
    parts(&grid(), CORNER[0] + north, CORNER[1] + east)
}

#[test]
fn bilinear_by_hand() {
    assert_eq!(at(0, 0), Ok([0, 0, 0]));
    assert_eq!(at(0, M), Ok([10, -10, 1]));
    assert_eq!(at(M, 0), Ok([100, 5, -3]));
    assert_eq!(at(M, M / 2).err(), None);
    // East of the corner by half a mesh: 5, -5, 0.5; north by half: 50, 2.5, -1.5; halves away from zero.
    assert_eq!(at(0, M / 2), Ok([5, -5, 1]));
    assert_eq!(at(M / 2, 0), Ok([50, 3, -2]));
    // The middle of the first cell: (0 + 10 + 100 + 110)/4, (0 - 10 + 5 - 5)/4, (0 + 1 - 3 + 0)/4.
    assert_eq!(at(M / 2, M / 2), Ok([55, -3, -1]));
    // A unit short of a half.
    assert_eq!(at(0, M / 2 - 1), Ok([5, -5, 0]));
    assert_eq!(at(M / 2 - 1, 0), Ok([50, 2, -1]));
}

/// On a shared edge the cell to the north or east, so its nodes must have values; at the outer edges the last cell.
#[test]
fn edges() {
    assert_eq!(at(M, M), Err(24));
    assert_eq!(at(M, M - 1).expect("in the north-west cell")[0], 110);
    assert_eq!(at(M - 1, M).expect("in the south-east cell")[0], 110);
    assert_eq!(at(0, M).expect("in the south-east cell")[0], 10);
    assert_eq!(at(2 * M, 0).expect("the north edge")[0], 200);
    assert_eq!(at(2 * M, M - 1).expect("the north edge")[0], 210);
    assert_eq!(at(2 * M, M), Err(24));
    assert_eq!(at(0, 2 * M).expect("the east edge")[0], 20);
    assert_eq!(at(M - 1, 2 * M).expect("the east edge")[0], 120);
    assert_eq!(at(M, 2 * M), Err(24));
    for (north, east) in [(-1, 0), (0, -1), (2 * M + 1, 0), (0, 2 * M + 1)] {
        assert_eq!(at(north, east), Err(24));
    }
    let whole = read(&text("G|0|35640000000|2|2|10", &["1|1|1", "2|2|2", "3|3|3", "4|4|4"])).expect("a grid");
    assert_eq!(parts(&whole, 60_000_000, 35_700_000_000), Ok([4, 4, 4]));
    assert_eq!(parts(&whole, 60_000_001, 35_700_000_000), Err(24));
    assert_eq!(parts(&whole, -1, 35_700_000_000), Err(12));
    assert_eq!(parts(&whole, 0, 35_639_999_999), Err(12));
}

#[test]
fn faults_of_a_grid() {
    const GOOD: &str = "G|1440000000|36720000000|2|2|5";
    let nodes = ["1|2|3", "-", "4|5|6", "7|8|9"];
    let refused = |text: &[u8]| {
        read(text).err().map_or((0, 0, 0), |Refused { number, line, place }| (number, line, place))
    };
    assert_eq!(refused(&text(GOOD, &nodes)), (0, 0, 0));
    // 30: missing or left over, unread; the last awaited line without its line feed is 18.
    assert_eq!(refused(b""), (30, 0, 0));
    assert_eq!(refused(&text(GOOD, &nodes[..3])), (30, 0, 0));
    assert_eq!(refused(&text(GOOD, &[])), (30, 0, 0));
    for more in ["\n", "x", "1|2|3\n", "-\n"] {
        assert_eq!(refused(&[text(GOOD, &nodes), tabs(more)].concat()), (30, 0, 0));
    }
    let whole = text(GOOD, &nodes);
    assert_eq!(refused(&whole[..whole.len() - 1]), (18, 5, 5));
    assert_eq!(refused(b"G"), (18, 1, 1));
    // Header: form before range.
    for (header, number, place) in [
        ("", 19, 0),
        ("g|1440000000", 19, 0),
        ("G", 20, 1),
        ("G|1440000000|36720000000|2|2|5|", 20, 31),
        ("G|-1|36720000000|2|02|5", 22, 19),
        ("G|-1|36720000000|2|2|5", 2, 0),
        ("G|2880000001|36720000000|2|2|5", 2, 0),
        ("G|1440000000|43200000001|2|2|5", 2, 0),
        ("G|1440000000|36720000000|1|2|5", 2, 0),
        ("G|1440000000|36720000000|2|1|5", 2, 0),
        ("G|1440000000|36720000000|-2|-2|5", 2, 0),
        ("G|1440000000|36720000000|63|64|5", 2, 0),
        ("G|1440000000|36720000000|2001|2|5", 2, 0),
        ("G|1440000000|36720000000|99999999999999999999|99999999999999999999|5", 2, 0),
        ("G|1440000000|36720000000|2|2|6", 2, 0),
        ("G|1440000000|36720000000|2|2|0", 2, 0),
    ] {
        assert_eq!(refused(&text(header, &nodes)), (number, 1, place), "{header}");
    }
    assert_eq!(refused(&text("G|1440000000|36720000000|2|2000|10", &nodes)), (30, 0, 0));
    // Nodes: 18, 20, 22, then 2; a `-` alone is a line, among others it is no number.
    for (node, number, place) in [
        ("", 20, 0),
        ("x", 20, 1),
        ("--", 20, 2),
        ("1|2", 20, 3),
        ("1|2|3|4", 20, 7),
        ("-|", 20, 2),
        ("-|-|-", 22, 0),
        ("1|-|3", 22, 2),
        ("1|2|03", 22, 4),
        ("2501|2|x", 22, 7),
        ("2501|2|3", 2, 0),
        ("1|2|-2501", 2, 0),
        ("1|2|99999999999999999999", 2, 0),
    ] {
        assert_eq!(refused(&text(GOOD, &["1|2|3", node, "x", ""])), (number, 3, place), "{node}");
    }
    assert_eq!(refused(&text(GOOD, &["2500|-2500|0", &"1".repeat(200)])), (18, 3, 200));
    assert_eq!(refused(&text(GOOD, &["-", "-", "-", "-"])), (0, 0, 0));
}

#[test]
fn the_velocity_step() {
    let nodes = ["1|2|3", "-2|4|6", "4|5|6", "7|8|9"];
    let grid = text("G|2310000000|36090000000|2|2|5", &nodes);
    let ask = |at: [i64; 2], datum: i64, epochs: [i64; 2]| velocity(&grid, at, datum, epochs);
    let arau = [2_322_056_909, 36_100_705_076];
    let (parts, step) = ask(arau, 7, [2_010_000, 2_020_000]).expect("a step");
    let Kind::Velocity(v) = step.kind else { panic!("a V step") };
    assert_eq!((parts, step.before.datum, step.before.epoch), ([2, 4, 5], 7, 2_010_000));
    assert_eq!((v, step.after.datum, step.after.epoch), ([-3, 4, 5], 7, 2_020_000));
    let number = |at: [i64; 2], datum: i64, epochs: [i64; 2]| ask(at, datum, epochs).err();
    assert_eq!(number([-1, 0], 11, [0, 0]), Some(12));
    assert_eq!(number([2_309_999_999, 36_100_705_076], 11, [0, 0]), Some(24));
    assert_eq!(number(arau, 11, [0, 0]), Some(2));
    assert_eq!(number(arau, 7, [2_100_001, 0]), Some(2));
    assert_eq!(number(arau, 7, [0, 2_000_000]), Some(3));
    assert_eq!(number(arau, 1, [0, 2_000_000]), Some(3));
    assert_eq!(number(arau, 1, [0, 0]), Some(4));
    assert_eq!(number(arau, 6, [2_000_000, 2_000_000]), None);
    assert_eq!(velocity(b"", [-1, 0], 11, [0, 0]).err(), Some(30));
}

/// docs/ORDERS.md, section 6, its worked values.
#[test]
fn turned_to_cartesian() {
    let rounded = |parts: [i64; 3], at: [i64; 2]| {
        turned(parts, at[0], at[1]).map(|x| paper::decimal::round(x, 0).expect("small"))
    };
    assert_eq!(rounded([-18079, -10098, -1687], [2322056909, 36100705076]), [17886, 2693, -10224]);
    assert_eq!(rounded([2500, -2500, 2500], [2880000000, 43200000000]), [-3577, 1195, -2128]);
    assert_eq!(rounded([-5148, 0, 0], [2322056437, 36100706423]), [5065, 919, 0]);
    let bits = |parts: [i64; 3], at: [i64; 2]| turned(parts, at[0], at[1]).map(f64::to_bits);
    assert_eq!(
        bits([-18079, -10098, -1687], [2322056909, 36100705076]),
        [0x40d177608793c32d, 0x40a50a195b973a08, 0xc0c3f7cc2494afb4]
    );
    assert_eq!(
        bits([2500, -2500, 2500], [2880000000, 43200000000]),
        [0xc0abf1badd8e5612, 0x4092ad3f58e9154e, 0xc0a09f798f0aeaaf]
    );
}
