//! A chain of steps and a point, by value: along and back.

use crate::profile::Profile;
use crate::ranges;
use crate::refusal::{unless, Refusal, DATUM_EPOCH, JOIN, LEFT, NINTH, OUTSIDE, PROFILE, RANGE, START};
use crate::step::{self, Realization, Step};

pub const MOST_STEPS: usize = 8;

/// A point without its id, which no call examines.
#[derive(Clone, Copy, Debug, PartialEq, Eq)]
pub struct Point {
    pub issue: i64,
    /// The order of control: 1 to 4 (request A6).
    pub order: i64,
    pub at: Realization,
    pub position: ranges::Position,
}

/// Order: chain first (the year 2; 6; then each step 2, 3, 25, 4, 5), then the point 2, 3, 25, 9, 10, then 11.
pub fn forward(year: i64, chain: &[Step], point: Point) -> Result<Point, Refusal> {
    let profile = chain_faults(year, chain)?;
    point_faults(&point)?;
    unless(profile.has_point(&point), PROFILE)?;
    forward_checked(chain, point)
}

pub fn inverse(year: i64, chain: &[Step], point: Point) -> Result<Point, Refusal> {
    let profile = chain_faults(year, chain)?;
    point_faults(&point)?;
    unless(profile.has_point(&point), PROFILE)?;
    inverse_checked(chain, point)
}

/// The profile of a chain that nothing is wrong with.
pub fn chain_faults(year: i64, chain: &[Step]) -> Result<Profile, Refusal> {
    let profile = Profile::of_year(year).ok_or(RANGE)?;
    unless(chain.len() <= MOST_STEPS, NINTH)?;
    for (place, each) in chain.iter().enumerate() {
        step::faults(profile, each)?;
        unless(place == 0 || joins(&chain[..place], each), JOIN)?;
    }
    Ok(profile)
}

/// Whether the step begins at the datum and epoch where the steps before it ended.
pub fn joins(earlier: &[Step], next: &Step) -> bool {
    earlier.last().is_none_or(|last| last.after == next.before)
}

/// What a point alone decides, with no profile: 2, 3.
pub fn point_faults(point: &Point) -> Result<(), Refusal> {
    let in_range = ranges::issue(point.issue)
        && ranges::order(point.order)
        && step::realization_in_range(point.at)
        && ranges::as_given(&point.position);
    unless(in_range, RANGE)?;
    unless(step::agree(point.at), DATUM_EPOCH)
}

/// 9, 10, 11: for a chain and a point without faults of their own.
pub fn forward_checked(chain: &[Step], point: Point) -> Result<Point, Refusal> {
    unless(chain.first().is_none_or(|first| first.before == point.at), START)?;
    unless(ranges::in_area(&point.position), OUTSIDE)?;
    let mut now = point;
    for each in chain {
        now.position = step::forward(each, now.position);
        now.at = each.after;
        unless(ranges::in_area(&now.position), LEFT)?;
    }
    Ok(now)
}

pub fn inverse_checked(chain: &[Step], point: Point) -> Result<Point, Refusal> {
    unless(chain.last().is_none_or(|last| last.after == point.at), START)?;
    unless(ranges::in_area(&point.position), OUTSIDE)?;
    let mut now = point;
    for each in chain.iter().rev() {
        now.position = step::inverse(each, now.position);
        now.at = each.before;
        unless(ranges::in_area(&now.position), LEFT)?;
    }
    Ok(now)
}
