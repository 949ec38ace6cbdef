//! What was tried, per function and refusal number, so that a number never reached shows.

use std::fmt;

#[derive(Clone, Copy, Debug, PartialEq, Eq)]
pub enum Function {
    Forward,
    Inverse,
    Join,
    Row,
    RowPoints,
    Cartesian,
    CartesianUnits,
    Geodetic,
    Cassini,
    CassiniMillimetres,
    RsoForward,
    RsoReverse,
    Round,
    Later,
    Fed,
    Stream,
    LotPlan,
    Grid,
    Sheet,
    Plan,
}

use Function::*;

const FUNCTIONS: usize = Plan as usize + 1;

/// The numbers that each can give; 0 is an answer or, in a sheet or plan, a line printed. 14 can't come
/// from an angle: every result lies below 10,000 km.
const REACHABLE: [(Function, &str, &[u8]); FUNCTIONS] = [
    (Forward, "forward", &[0, 2, 3, 4, 5, 6, 9, 10, 11, 25]),
    (Inverse, "inverse", &[0, 2, 3, 4, 5, 6, 9, 10, 11, 25]),
    (Join, "join", &[0, 2, 3, 4, 5, 6, 25]),
    (Row, "row", &[0, 2, 3, 4, 5, 6, 25, 26]),
    (RowPoints, "row, points", &[0, 2, 3, 9, 10, 11, 25]),
    (Cartesian, "cartesian", &[0, 2, 12]),
    (CartesianUnits, "cartesian units", &[0, 2, 12]),
    (Geodetic, "from Cartesian", &[0, 2, 10, 12]),
    (Cassini, "cassini", &[0, 2, 12, 13]),
    (CassiniMillimetres, "cassini millimetres", &[0, 2, 12, 13]),
    (RsoForward, "RSO forward", &[0, 2, 12]),
    (RsoReverse, "RSO reverse", &[0, 2, 12, 23]),
    (Round, "round", &[0, 2, 14]),
    (Later, "later of two", &[0, 2, 3, 16, 17, 18, 19, 20, 21, 22]),
    (Fed, "fragments, calls", &[0, 29]),
    (Stream, "fragments, lines", &[0, 2, 3, 4, 5, 6, 7, 8, 9, 10, 11, 18, 19, 20, 21, 22, 25, 28]),
    (LotPlan, "lot plan", &[0, 2, 3, 4, 5, 6, 7, 9, 10, 11, 12, 13, 18, 19, 20, 21, 22, 25, 27]),
    (Grid, "velocity of a grid", &[0, 2, 3, 4, 12, 18, 19, 20, 22, 24, 30]),
    (Sheet, "sheet, lines", &[0, 2, 3, 4, 5, 6, 7, 8, 9, 10, 11, 15, 18, 19, 20, 21, 22, 25]),
    (Plan, "plan, lines", &[0, 2, 7, 8, 12, 13, 15, 18, 19, 20, 21, 22]),
];

#[derive(Clone, Default)]
pub struct Tally {
    counts: [[u64; 32]; FUNCTIONS],
}

impl Tally {
    pub fn count<T>(&mut self, function: Function, answer: &Result<T, u8>) {
        let number = answer.as_ref().err().copied().unwrap_or(0);
        self.counts[function as usize][usize::from(number)] += 1;
    }

    /// Counts the R lines of an output by their numbers, and the others as answers.
    pub fn count_lines(&mut self, function: Function, output: &[u8]) {
        for line in output.split(|&b| b == b'\n').filter(|line| !line.is_empty()) {
            let number = line.split(|&b| b == b'\t').nth(2).unwrap_or_default();
            let number = std::str::from_utf8(number).ok().and_then(|text| text.parse().ok());
            let answer = if line[0] == b'R' { Err(number.unwrap_or(0)) } else { Ok(()) };
            self.count(function, &answer);
        }
    }

    /// Numbers that should have been reached and were not.
    pub fn missing(&self) -> Vec<String> {
        let mut missing = Vec::new();
        for (function, name, numbers) in REACHABLE {
            for &number in numbers {
                if self.counts[function as usize][usize::from(number)] == 0 {
                    missing.push(format!("{name}: {number}"));
                }
            }
        }
        missing
    }
}

impl fmt::Display for Tally {
    fn fmt(&self, f: &mut fmt::Formatter) -> fmt::Result {
        for (function, name, numbers) in REACHABLE {
            write!(f, "  {name:<20}")?;
            for &number in numbers {
                write!(f, " {number}:{}", self.counts[function as usize][usize::from(number)])?;
            }
            writeln!(f)?;
        }
        Ok(())
    }
}
