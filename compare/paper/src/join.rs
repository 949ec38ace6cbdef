//! Request A12: a state's chain and a job's made one.

use crate::chain::{self, MOST_STEPS};
use crate::profile::Profile;
use crate::refusal::{unless, Refusal, JOIN, NINTH, PROFILE};
use crate::step::Step;

/// A chain as it is handed in: the year of its profile, and its steps.
#[derive(Clone, Copy, Debug)]
pub struct Given<'a> {
    pub year: i64,
    pub steps: &'a [Step],
}

/// Order: the first chain's own number, the second's, then 5, 6, 25. An empty chain joins whatever has its profile.
pub fn join(first: Given, second: Given) -> Result<(Profile, Vec<Step>), Refusal> {
    let profile = chain::chain_faults(first.year, first.steps)?;
    let other = chain::chain_faults(second.year, second.steps)?;
    unless(second.steps.first().is_none_or(|next| chain::joins(first.steps, next)), JOIN)?;
    unless(first.steps.len() + second.steps.len() <= MOST_STEPS, NINTH)?;
    unless(profile == other, PROFILE)?;
    Ok((profile, [first.steps, second.steps].concat()))
}
