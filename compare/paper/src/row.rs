//! Request A4: a day's points in one call.

use crate::chain::{self, Point};
use crate::refusal::{unless, Refusal, RANGE, ROW};
use crate::step::Step;

/// What the single conversion gives for one point.
pub type Answer = Result<Point, Refusal>;

/// Order: 26, then the direction 2 (0 is along, 1 is back), then the chain's own number for the whole call; each of them writes
/// nothing. Then every point has its answer in its place, and the places past the points stay.
pub fn row(
    year: i64,
    chain: &[Step],
    direction: i64,
    points: &[Point],
    answers: &mut [Option<Answer>],
) -> Result<(), Refusal> {
    unless(points.len() <= answers.len(), ROW)?;
    let single = match direction {
        0 => chain::forward,
        1 => chain::inverse,
        _ => return Err(RANGE),
    };
    chain::chain_faults(year, chain)?;
    for (point, answer) in points.iter().zip(answers) {
        *answer = Some(single(year, chain, *point));
    }
    Ok(())
}
