//! bench [--programs FOLDER]: the product's times beside the baseline's, same input, same run.
//!
//! Buffers are made once and not cleared between calls on either side. Ends with 1 where a ratio is over
//! the bar.

use harness::gen::{chains::Chains, full, lots};
use harness::measure::{both, Pair};
use harness::programs::Programs;
use harness::rng::Rng;
use harness::subject::Asked;
use harness::{arguments, product};
use paper::library::radians;
use paper::numbers::PointRow;
use paper::oblique::Oblique;
use paper::rso::Parameters;
use paper::stream::{fresh, ROOM};
use std::hint::black_box;
use std::process::ExitCode;

const BAR: f64 = 1.5;
/// Of a sheet in pieces of 64 bytes beside the product's own sheet call.
const PIECES_BAR: f64 = 3.0;
const FULL: usize = 65_536;
const CALLS: usize = 1000;
const DAY: usize = 2000;

#[derive(Default)]
struct Report {
    worst: f64,
    at: String,
    pieces: f64,
}

impl Report {
    fn line(&mut self, name: &str, unit: &str, pair: &Pair) {
        let (product, baseline, ratio) = (pair.product, pair.baseline, pair.ratio());
        let over = if ratio > BAR { "  OVER THE BAR" } else { "" };
        println!(
            "{name:<44} product {product:>11.1}  baseline {baseline:>11.1} ns {unit:<6}  ratio {ratio:.2}{over}"
        );
        if ratio > self.worst {
            self.worst = ratio;
            self.at = name.to_string();
        }
    }

    /// Beside other functions than ours: to know, not to meet.
    fn aside(&self, name: &str, pair: &Pair) {
        let (product, library, ratio) = (pair.product, pair.baseline, pair.ratio());
        println!("{name:<44} product {product:>11.1}   library {library:>11.1} ns a call  ratio {ratio:.2} (no bar)");
    }
}

fn main() -> ExitCode {
    let mut rng = Rng::new(arguments::number("--seed", 7));
    let chains = Chains::default();
    let mut report = Report::default();
    sheets(&mut report, &mut rng, &chains);
    linear(&mut rng, &chains);
    fragments(&mut report, &mut rng, &chains);
    plans(&mut report, &mut rng);
    conversions(&mut report, &mut rng, &chains);
    rows(&mut report, &mut rng, &chains);
    joins(&mut report, &mut rng, &chains);
    grids(&mut report, &mut rng);
    lot_plans(&mut report, &mut rng, &chains);
    angles(&mut report, &mut rng);
    from_cartesian(&mut report, &mut rng);
    oblique_mercator(&mut report, &mut rng);
    if let Some(folder) = arguments::value("--programs") {
        processes(&mut report, &mut rng, &chains, std::path::Path::new(&folder));
    }
    println!("bench: worst ratio {:.2} ({}), bar {BAR}", report.worst, report.at);
    println!("bench: pieces of 64 bytes {:.2} times the sheet call, bar {PIECES_BAR}", report.pieces);
    if report.worst > BAR || report.pieces > PIECES_BAR {
        ExitCode::FAILURE
    } else {
        ExitCode::SUCCESS
    }
}

type Call = fn(&[u8], &mut [u8]) -> i64;
type Append = fn(&[u8], &mut Vec<u8>);

/// A whole input, per line.
fn text(report: &mut Report, name: &str, input: &[u8], call: Call, append: Append) {
    let lines = input.iter().filter(|b| **b == b'\n').count().max(1);
    let mut out = vec![0; product::room(input)];
    let mut other = Vec::with_capacity(out.len());
    let ours = || {
        black_box(call(black_box(input), &mut out));
    };
    let theirs = || {
        other.clear();
        append(black_box(input), black_box(&mut other));
    };
    let pair = both(ours, theirs, lines, 301);
    report.line(&format!("{name} ({lines} lines)"), "a line", &pair);
}

fn sheets(report: &mut Report, rng: &mut Rng, chains: &Chains) {
    let mut sheet = |name: &str, input: Vec<u8>| {
        text(report, &format!("sheet, {name}"), &input, product::sheet, baseline::sheet::sheet)
    };
    sheet("eight B steps", full::sheet(rng, chains, "BBBBBBBB", FULL));
    sheet("eight B steps, half", full::sheet(rng, chains, "BBBBBBBB", FULL / 2));
    sheet("eight B steps, quarter", full::sheet(rng, chains, "BBBBBBBB", FULL / 4));
    sheet("eight T steps", full::sheet(rng, chains, "TTTTTTTT", FULL));
    sheet("eight V steps", full::sheet(rng, chains, "VVVVVVVV", FULL));
    sheet("F and B in turn", full::sheet(rng, chains, "FBFBFBFB", FULL));
    sheet("one B step", full::sheet(rng, chains, "B", FULL));
    sheet("refusals", full::refusals(rng, chains, FULL));
    sheet("bad forms", full::malformed(rng, chains, FULL));
    sheet("bare line feeds", vec![b'\n'; FULL]);
    sheet("no line feed", vec![b'S'; FULL]);
}

fn plans(report: &mut Report, rng: &mut Rng) {
    let mut plan = |name: &str, input: Vec<u8>| {
        text(report, &format!("plan, {name}"), &input, product::plan, baseline::plan::plan)
    };
    plan("full", full::plan(rng, FULL));
    plan("bare line feeds", vec![b'\n'; FULL]);
}

/// A sheet in fragments, over a state of numbers: each call tests the state. Short, so that few runs are interrupted.
fn fragments(report: &mut Report, rng: &mut Rng, chains: &Chains) {
    let input = full::sheet(rng, chains, "BBBBBBBB", FULL / 16);
    let lines = input.iter().filter(|b| **b == b'\n').count();
    let mut text = Vec::with_capacity(product::ANSWER);
    for (size, name) in [(FULL, "whole"), (256, "256 bytes"), (64, "64 bytes"), (20, "20 bytes")] {
        let theirs = || {
            let (mut numbers, mut line) = (fresh(), [0; ROOM]);
            let mut state = baseline::stream::State { numbers: &mut numbers, line: &mut line };
            for mut piece in input.chunks(size) {
                while !piece.is_empty() {
                    text.clear();
                    let (taken, _) = state.feed(piece, &mut text).expect("a good state");
                    piece = &piece[taken..];
                }
            }
            black_box(state.finish(&mut text).expect("a good state"));
        };
        let pair = both(|| fed(&input, size), theirs, lines, 401);
        report.line(&format!("sheet in fragments, {name}"), "a line", &pair);
    }
    for steps in ["T", "B", "BBBBBBBB"] {
        beside_the_sheet(report, &full::sheet(rng, chains, steps, FULL / 16), steps.len());
    }
}

/// The product's calls on a sheet in pieces of that many bytes.
fn fed(input: &[u8], size: usize) {
    let (mut numbers, mut line) = (fresh(), [0; ROOM]);
    let (mut out, mut told) = ([0; product::ANSWER], [0; 2]);
    for mut piece in input.chunks(size) {
        while !piece.is_empty() {
            black_box(product::feed(&mut numbers, &mut line, piece, &mut out, &mut told));
            piece = &piece[told[0] as usize..];
        }
    }
    black_box(product::finish(&mut numbers, &mut line, &mut out));
}

/// In pieces of 64 bytes a sheet costs at most three times the product's own sheet call.
fn beside_the_sheet(report: &mut Report, input: &[u8], steps: usize) {
    let lines = input.iter().filter(|b| **b == b'\n').count();
    let mut out = vec![0; product::room(input)];
    let whole = || {
        black_box(product::sheet(black_box(input), &mut out));
    };
    let pair = both(|| fed(input, 64), whole, lines, 401);
    let ratio = pair.ratio();
    println!("  {steps} steps in pieces of 64 bytes: {ratio:.2} times the sheet call (bar {PIECES_BAR})");
    report.pieces = report.pieces.max(ratio);
}

/// One full sheet beside four of a quarter, so that both come to as many lines: the ratio is 1 where time
/// is linear in the lines.
fn linear(rng: &mut Rng, chains: &Chains) {
    let mut sheets = |count: usize| -> Vec<Vec<u8>> {
        (0..count).map(|_| full::sheet(rng, chains, "BBBBBBBB", FULL / count)).collect()
    };
    let inputs = [sheets(1), sheets(2), sheets(4)];
    let mut out = vec![0; product::room(&inputs[0][0])];
    let mut other = Vec::with_capacity(out.len());
    let mut ours = |inputs: &[Vec<u8>]| {
        for input in inputs {
            black_box(product::sheet(input, &mut out));
        }
    };
    let mut theirs = |inputs: &[Vec<u8>]| {
        for input in inputs {
            other.clear();
            baseline::sheet::sheet(input, black_box(&mut other));
        }
    };
    for (parts, name) in [(1, "two of a half"), (2, "four of a quarter")] {
        let pair = both(|| ours(&inputs[0]), || theirs(&inputs[0]), 1, 101);
        let part = both(|| ours(&inputs[parts]), || theirs(&inputs[parts]), 1, 101);
        let (product, baseline) = (pair.product / part.product, pair.baseline / part.baseline);
        println!("  a full sheet takes {product:.2} times {name} (product), {baseline:.2} (baseline)");
    }
}

/// Single calls on each of the items.
fn calls<T>(report: &mut Report, name: &str, items: &[T], mut ours: impl FnMut(&T), theirs: impl Fn(&T)) {
    let pair = both(|| items.iter().for_each(&mut ours), || items.iter().for_each(&theirs), items.len(), 401);
    report.line(name, "a call", &pair);
}

fn conversions(report: &mut Report, rng: &mut Rng, chains: &Chains) {
    let rows = full::rows(rng, chains, "BBBBBBBB");
    let chain: Vec<i64> = rows.concat();
    let mut points = |datum: i64, epoch: i64| -> Vec<PointRow> {
        let point = |[x, y, z]: [i64; 3]| [1, 1, datum, epoch, x, y, z];
        (0..CALLS).map(|_| point(full::inside(rng))).collect()
    };
    let (start, end) = (points(rows[0][2], rows[0][3]), points(rows[7][4], rows[7][5]));
    let mut out = [0; 7];
    calls(
        report,
        "forward, eight B steps",
        &start,
        |point| _ = black_box(product::forward(2021, &chain, point, &mut out)),
        |point| _ = black_box(baseline::numbers::forward(2021, &chain, point)),
    );
    calls(
        report,
        "inverse, eight B steps",
        &end,
        |point| _ = black_box(product::inverse(2021, &chain, point, &mut out)),
        |point| _ = black_box(baseline::numbers::inverse(2021, &chain, point)),
    );
}

/// Grids are read anew at each call.
fn grids(report: &mut Report, rng: &mut Rng) {
    for (rows, columns, count) in [(2, 2, 200), (20, 20, 100), (50, 80, 20)] {
        let asked: Vec<(Vec<u8>, Asked)> = (0..count)
            .map(|_| {
                let grid = full::grid(rng, rows, columns);
                let [latitude, longitude] = grid.corner;
                let asked = Asked {
                    latitude: latitude + rng.between(0, (rows - 1) * grid.units()),
                    longitude: longitude + rng.between(0, (columns - 1) * grid.units()),
                    datum: 7,
                    before: 2_010_000,
                    after: 2_020_000,
                };
                (grid.text(), asked)
            })
            .collect();
        let mut out = [0; 16];
        calls(
            report,
            &format!("velocity from a grid of {} nodes", rows * columns),
            &asked,
            |(text, a)| _ = black_box(product::grid_velocity(text, a, &mut out)),
            |(text, a)| {
                let at = [a.latitude, a.longitude];
                _ = black_box(baseline::grid::velocity(text, at, a.datum, [a.before, a.after]));
            },
        );
    }
}

/// Two thousand marks in one call, and the same by single calls of the product.
fn rows(report: &mut Report, rng: &mut Rng, chains: &Chains) {
    let rows = full::rows(rng, chains, "BBBBBBBB");
    let chain: Vec<i64> = rows.concat();
    let mut day = |datum: i64, epoch: i64| -> Vec<i64> {
        let point = |[x, y, z]: [i64; 3]| [1, 1, datum, epoch, x, y, z];
        (0..DAY).flat_map(|_| point(full::inside(rng))).collect()
    };
    let days = [day(rows[0][2], rows[0][3]), day(rows[7][4], rows[7][5])];
    let (mut answers, mut other, mut out) = (vec![0; 8 * DAY], vec![0; 8 * DAY], [0; 7]);
    for (direction, name) in [(0, "along"), (1, "back")] {
        let points = &days[direction];
        let direction = direction as i64;
        let mut ours = || _ = black_box(product::row(2021, &chain, direction, points, &mut answers));
        let theirs = || _ = black_box(baseline::numbers::row(2021, &chain, direction, points, &mut other));
        let pair = both(&mut ours, theirs, DAY, 101);
        report.line(&format!("row of {DAY} points {name}, eight B steps"), "a point", &pair);
        let single = if direction == 0 { product::forward } else { product::inverse };
        let singles = || {
            for point in points.chunks(7) {
                black_box(single(2021, &chain, point, &mut out));
            }
        };
        let pair = both(&mut ours, singles, DAY, 101);
        println!("  a row takes {:.2} times single calls in a loop", pair.ratio());
    }
}

/// The chain's text is read anew at each call.
fn lot_plans(report: &mut Report, rng: &mut Rng, chains: &Chains) {
    let mut good = Vec::new();
    while good.len() < CALLS {
        let lot = lots::lot(rng, chains);
        if baseline::lot_plan::lot_plan(&lot.text, &lot.line, lot.origin, lot.room, &mut Vec::new()).is_ok() {
            good.push(lot);
        }
    }
    let (mut out, mut line) = ([0; 300], Vec::with_capacity(300));
    let ours = || {
        for lot in &good {
            black_box(product::lot_plan(lot, &mut out));
        }
    };
    let theirs = || {
        for lot in &good {
            line.clear();
            _ = black_box(baseline::lot_plan::lot_plan(&lot.text, &lot.line, lot.origin, 300, &mut line));
        }
    };
    let pair = both(ours, theirs, CALLS, 401);
    report.line("lot plan, chains of 0 to 8 steps", "a call", &pair);
}

/// Four steps and four.
fn joins(report: &mut Report, rng: &mut Rng, chains: &Chains) {
    let pairs: Vec<Vec<i64>> = (0..CALLS).map(|_| full::rows(rng, chains, "BBBBBBBB").concat()).collect();
    let mut out = [0; product::JOINED];
    calls(
        report,
        "join, four B steps and four",
        &pairs,
        |rows| _ = black_box(product::join([2021, 2021], &rows[..52], &rows[52..], &mut out)),
        |rows| _ = black_box(baseline::numbers::join(2021, &rows[..52], 2021, &rows[52..])),
    );
}

fn angles(report: &mut Report, rng: &mut Rng) {
    let grid: Vec<[i64; 7]> = (0..CALLS).map(|_| full::cassini(rng)).collect();
    let geodetic: Vec<[i64; 4]> = (0..CALLS).map(|_| full::geodetic(rng)).collect();
    let origin = |n: &[i64; 7]| baseline::angle::Origin::new([n[0], n[1], n[2], n[3], n[4]]);
    let (mut metres, mut whole, mut cartesian) = ([0.0; 2], [0; 2], [0.0; 3]);
    calls(
        report,
        "Cassini point",
        &grid,
        |n| _ = black_box(product::cassini(n, &mut metres)),
        |n| _ = black_box(origin(n).and_then(|o| o.cassini(n[5], n[6]))),
    );
    calls(
        report,
        "Cassini point, millimetres",
        &grid,
        |n| _ = black_box(product::cassini_millimetres(n, &mut whole)),
        |n| _ = black_box(origin(n).and_then(|o| o.cassini_millimetres(n[5], n[6]))),
    );
    calls(
        report,
        "geodetic to Cartesian",
        &geodetic,
        |n| _ = black_box(product::cartesian(n, &mut cartesian)),
        |n| _ = black_box(baseline::angle::cartesian(n[0], n[1], n[2], n[3])),
    );
}

fn from_cartesian(report: &mut Report, rng: &mut Rng) {
    let positions: Vec<[i64; 4]> = (0..CALLS).map(|_| full::position(rng)).collect();
    let mut out = [0; 3];
    let mut ours = |n: &[i64; 4]| _ = black_box(product::geodetic(n, &mut out));
    calls(report, "Cartesian to geodetic", &positions, &mut ours, |n| {
        _ = black_box(baseline::geodetic::geodetic(n[0], [n[1], n[2], n[3]]));
    });
    let theirs = |n: &[i64; 4]| _ = black_box(baseline::geodetic::over_the_library(n[0], [n[1], n[2], n[3]]));
    let pair =
        both(|| positions.iter().for_each(&mut ours), || positions.iter().for_each(theirs), CALLS, 401);
    report.aside("the same formulas over the C library", &pair);
}

/// The C interface makes the projection at each call, and so does the baseline here. Making alone is timed by a latitude
/// out of its range, which is looked at after the projection has been made; what points on a made projection cost is the
/// baseline's.
fn oblique_mercator(report: &mut Report, rng: &mut Rng) {
    let points: Vec<([i64; 8], [i64; 2])> = (0..CALLS).map(|_| full::rso(rng)).collect();
    let on_the_map = |(parameters, [latitude, longitude]): &([i64; 8], [i64; 2])| {
        (
            *parameters,
            paper::rso::forward(&Parameters::new(*parameters), *latitude, *longitude).expect("in range"),
        )
    };
    let metres: Vec<([i64; 8], [f64; 2])> = points.iter().map(on_the_map).collect();
    let (mut out, mut nothing, mut home) = ([0.0; 2], [0.0; 2], [0; 2]);
    let mut forward = |(parameters, at): &([i64; 8], [i64; 2])| {
        _ = black_box(product::rso_forward(parameters, *at, &mut out));
    };
    calls(report, "RSO forward, projection made each time", &points, &mut forward, |(parameters, [a, b])| {
        _ = black_box(baseline::rso::forward(parameters, *a, *b));
    });
    calls(
        report,
        "RSO, a projection made and no point",
        &points,
        |(parameters, _)| _ = black_box(product::rso_forward(parameters, [-1, 0], &mut nothing)),
        |(parameters, _)| _ = black_box(baseline::rso::forward(parameters, -1, 0)),
    );
    let mut reverse = |(parameters, at): &([i64; 8], [f64; 2])| {
        _ = black_box(product::rso_reverse(parameters, *at, &mut home));
    };
    calls(report, "RSO reverse, projection made each time", &metres, &mut reverse, |(parameters, [a, b])| {
        _ = black_box(baseline::rso::reverse(parameters, *a, *b));
    });
    let library_forward = |(parameters, [a, b]): &([i64; 8], [i64; 2])| {
        let oblique = Oblique::new(&Parameters::new(*parameters));
        _ = black_box(oblique.forward(radians(*a as f64), radians(*b as f64)));
    };
    let pair =
        both(|| points.iter().for_each(&mut forward), || points.iter().for_each(library_forward), CALLS, 401);
    report.aside("RSO forward beside the C library", &pair);
    let library_reverse = |(parameters, [a, b]): &([i64; 8], [f64; 2])| {
        _ = black_box(Oblique::new(&Parameters::new(*parameters)).reverse(*a, *b));
    };
    let pair =
        both(|| metres.iter().for_each(&mut reverse), || metres.iter().for_each(library_reverse), CALLS, 401);
    report.aside("RSO reverse beside the C library", &pair);
    on_a_made_projection(&points, &metres);
}

fn on_a_made_projection(points: &[([i64; 8], [i64; 2])], metres: &[([i64; 8], [f64; 2])]) {
    let made = baseline::rso::Projection::new(&points[0].0).expect("accepted");
    let making =
        || points.iter().for_each(|(p, _)| _ = black_box(baseline::rso::Projection::new(black_box(p))));
    let forward = || points.iter().for_each(|(_, [a, b])| _ = black_box(made.forward(*a, *b)));
    let reverse = || metres.iter().for_each(|(_, [a, b])| _ = black_box(made.reverse(*a, *b)));
    let points = both(making, forward, CALLS, 401);
    let back = both(making, reverse, CALLS, 401);
    println!(
        "  baseline: making a projection {:.1} ns; on a made one forward {:.1} ns, reverse {:.1} ns",
        points.product, points.baseline, back.baseline
    );
}

/// The built programs from start to end.
fn processes(report: &mut Report, rng: &mut Rng, chains: &Chains, folder: &std::path::Path) {
    let baseline = Programs::beside("baseline").expect("the path of this program");
    let product = Programs::new("product", folder.join("sheet"), folder.join("plan"));
    let sheet = full::sheet(rng, chains, "BBBBBBBB", FULL);
    let plan = full::plan(rng, FULL);
    let run = |programs: &Programs, is_sheet: bool, input: &[u8]| {
        let program = if is_sheet { &programs.sheet } else { &programs.plan };
        programs.run(program, input, usize::MAX).expect("the program runs");
    };
    for (name, is_sheet, input) in [
        ("program, full sheet of eight B steps", true, &sheet),
        ("program, full plan", false, &plan),
        ("program, empty sheet", true, &Vec::new()),
    ] {
        let pair = both(|| run(&product, is_sheet, input), || run(&baseline, is_sheet, input), 1, 301);
        report.line(name, "a run", &pair);
    }
}
