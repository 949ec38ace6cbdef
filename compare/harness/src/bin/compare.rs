//! compare --short | --long [--seed N] [--programs FOLDER]
//!
//! The baseline, and with the feature `product` the product, against the independent program. Ends with
//! 1 at the first difference, after printing the input.

use harness::arguments;
use harness::checks::{
    angles, conversions, geodetic, grids, joins, later, lots, roundings, rows, rso, rso_causes, streams, texts, trips,
};
use harness::compare::{Comparison, Outcome};
use harness::programs::Programs;
use harness::subject::{Baseline, Subject};
use std::process::ExitCode;
use std::time::Instant;

struct Sizes {
    conversions: u64,
    trips: u64,
    joins: u64,
    rows: u64,
    lots: u64,
    streams: u64,
    grids: u64,
    roundings: u64,
    angles: u64,
    geodetic: u64,
    rso: u64,
    pairs: u64,
    texts: u64,
    processes: u64,
}

const SHORT: Sizes = Sizes {
    conversions: 300_000,
    trips: 200_000,
    joins: 40_000,
    rows: 20_000,
    lots: 30_000,
    streams: 2_500,
    grids: 60_000,
    roundings: 1_000_000,
    angles: 200_000,
    geodetic: 200_000,
    rso: 200_000,
    pairs: 100_000,
    texts: 12_000,
    processes: 200,
};

const LONG: Sizes = Sizes {
    conversions: 10_000_000,
    trips: 10_000_000,
    joins: 3_000_000,
    rows: 1_000_000,
    lots: 2_000_000,
    streams: 100_000,
    grids: 2_000_000,
    roundings: 20_000_000,
    angles: 2_000_000,
    geodetic: 5_000_000,
    rso: 5_000_000,
    pairs: 2_000_000,
    texts: 300_000,
    processes: 4_000,
};

fn main() -> ExitCode {
    let sizes = if arguments::has("--long") { LONG } else { SHORT };
    let seed = arguments::number("--seed", 0x5717_ec1a);
    let mut comparison = Comparison::new(seed, suspects(), programs());
    let names: Vec<&str> = comparison.suspects.iter().map(|s| s.name()).collect();
    println!("seed {seed:#x}; independent program against: {}", names.join(", "));
    if let Err(mismatch) = run(&mut comparison, &sizes) {
        println!("MISMATCH: {}", mismatch.0);
        return ExitCode::FAILURE;
    }
    println!("answers and refusals (number:count)\n{}", comparison.tally);
    let missing = comparison.tally.missing();
    if !missing.is_empty() {
        println!("NEVER REACHED: {}", missing.join("; "));
        return ExitCode::FAILURE;
    }
    println!("compare: no difference, every reachable number reached");
    ExitCode::SUCCESS
}

fn suspects() -> Vec<Box<dyn Subject>> {
    vec![
        #[cfg(feature = "product")]
        Box::new(harness::product::Product),
        Box::new(Baseline),
    ]
}

/// The baseline's programs, and those in the folder named, which are the product's.
fn programs() -> Vec<Programs> {
    let mut programs = vec![Programs::beside("baseline").expect("the path of this program")];
    if let Some(folder) = arguments::value("--programs") {
        let folder = std::path::PathBuf::from(folder);
        programs.push(Programs::new("product program", folder.join("sheet"), folder.join("plan")));
    }
    programs
}

fn run(c: &mut Comparison, sizes: &Sizes) -> Outcome {
    timed(&format!("{} sheets and as many plans", sizes.texts), || {
        texts::run(c, sizes.texts, sizes.processes)
    })?;
    timed(&format!("{} sheets in fragments", sizes.streams), || streams::run(c, sizes.streams))?;
    timed(&format!("{} conversions each way", sizes.conversions), || conversions::run(c, sizes.conversions))?;
    timed(&format!("{} round trips that came home", sizes.trips), || round_trips(c, sizes.trips))?;
    timed(&format!("{} pairs and triples of chains", sizes.joins), || joined(c, sizes.joins))?;
    timed(&format!("{} rows of points", sizes.rows), || rows::run(c, sizes.rows))?;
    timed(&format!("{} lot plans", sizes.lots), || lots::run(c, sizes.lots))?;
    timed(&format!("{} points of velocity grids", sizes.grids), || grids::run(c, sizes.grids))?;
    timed(&format!("{} roundings", sizes.roundings), || roundings::run(c, sizes.roundings))?;
    timed(&format!("{} geodetic and as many Cassini points", sizes.angles), || angles::run(c, sizes.angles))?;
    timed(&format!("{} positions to angles", sizes.geodetic), || from_cartesian(c, sizes.geodetic))?;
    timed(&format!("{} points onto RSO and as many back", sizes.rso), || oblique_mercator(c, sizes.rso))?;
    timed(&format!("{} pairs for the later of two", sizes.pairs), || later::run(c, sizes.pairs))?;
    #[cfg(feature = "product")]
    timed("wrong lengths", || harness::checks::lengths::run(c, sizes.pairs / 100))?;
    Ok(())
}

fn round_trips(c: &mut Comparison, count: u64) -> Outcome {
    let trips = trips::run(c, count)?;
    let largest = trips.largest;
    println!("  {} more were refused; largest difference by B and F steps: {largest:?}", trips.refused);
    Ok(())
}

fn joined(c: &mut Comparison, count: u64) -> Outcome {
    let tried = joins::run(c, count)?;
    println!("  {tried:?}");
    Ok(())
}

fn from_cartesian(c: &mut Comparison, count: u64) -> Outcome {
    geodetic::causes(c)?;
    geodetic::run(c, count)?;
    let points = count / 10;
    let largest = geodetic::against_iteration(c, points)?;
    println!(
        "  {points} points that aren't refused lie within {:.3} mm of the iteration's",
        largest * 1000.0
    );
    let trips = geodetic::there_and_back(c, count)?;
    println!(
        "  {count} trips to X, Y, Z and back: all angles the same, {} heights a unit off, {} past their end",
        trips.heights_a_unit_off, trips.past_the_end
    );
    Ok(())
}

fn oblique_mercator(c: &mut Comparison, count: u64) -> Outcome {
    rso_causes::printed(c)?;
    rso_causes::causes(c)?;
    rso::run(c, count)?;
    let points = count / 2;
    let [areas, others] = rso::forward_against_library(c, points)?;
    println!("  {points} points forward lie within {areas:.1e} m (areas), {others:.1e} m (others) of the library's");
    let back = rso::reverse_against_library(c, points)?;
    println!("  {points} pairs E, N answered or refused as by the library: {back:?}");
    let trips = rso::there_and_back(c, count)?;
    println!(
        "  {count} trips forward and back: largest difference {} units, {} not exact",
        trips.largest, trips.not_exact
    );
    Ok(())
}

fn timed(what: &str, part: impl FnOnce() -> Outcome) -> Outcome {
    let start = Instant::now();
    part()?;
    println!("{what}: {:.1} s", start.elapsed().as_secs_f64());
    Ok(())
}
