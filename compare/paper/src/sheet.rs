//! Document 01, the sheet program: steps, then points; and request A10's edition on the first line.

use crate::chain::{self, MOST_STEPS};
use crate::lines;
use crate::profile::Profile;
use crate::program::{self, Reader};
use crate::refusal::{unless, Fault, EARLIER, JOIN, LENGTH, NINTH, ORDER, PROFILE, RANGE};
use crate::step::{self, Step};

pub fn sheet(input: &[u8]) -> Vec<u8> {
    program::run(input, Sheet::default())
}

#[derive(Clone, Default)]
pub struct Sheet {
    pub lines_read: u64,
    pub profile: Profile,
    pub chain: Vec<Step>,
    /// A line beginning with S or E was refused, whatever for.
    pub step_refused: bool,
    /// A point line of good form was read, refused or not.
    pub point_read: bool,
}

impl Reader for Sheet {
    fn line(&mut self, line: &[u8]) -> Result<String, Fault> {
        self.lines_read += 1;
        let (answer, counts) = match line.first() {
            Some(b'E') => (self.edition(line), true),
            Some(b'S') => (self.step(line), true),
            Some(b'P') => (self.point(line), false),
            _ => (Err(lines::unknown(line)), false),
        };
        self.step_refused |= counts && answer.is_err();
        answer
    }
}

impl Sheet {
    /// Request A8: bytes that are no line, too many or with no line feed to come. Their first one still counts for 8.
    pub fn no_line(&mut self, bytes: &[u8]) -> Fault {
        self.lines_read += 1;
        self.step_refused |= matches!(bytes.first(), Some(b'S' | b'E'));
        Fault { number: LENGTH, place: bytes.len() }
    }

    /// Order: 18 to 22, 7, 2. An accepted edition prints nothing; a refused one leaves that of 2021.
    fn edition(&mut self, line: &[u8]) -> Result<String, Fault> {
        let year = lines::edition(line)?;
        unless(self.lines_read == 1, ORDER)?;
        self.profile = Profile::of_year(year).ok_or(RANGE)?;
        Ok(String::new())
    }

    /// Order: 18 to 22, 2, 3, 25, 4, 8, 7, 5, 6. An accepted step prints nothing.
    fn step(&mut self, line: &[u8]) -> Result<String, Fault> {
        let next = lines::step(line)?;
        step::faults(self.profile, &next)?;
        unless(!self.step_refused, EARLIER)?;
        unless(!self.point_read, ORDER)?;
        unless(chain::joins(&self.chain, &next), JOIN)?;
        unless(self.chain.len() < MOST_STEPS, NINTH)?;
        self.chain.push(next);
        Ok(String::new())
    }

    /// Order: 18 to 22, 2, 3, 25, 8, 9, 10, 11.
    fn point(&mut self, line: &[u8]) -> Result<String, Fault> {
        let named = lines::point(line)?;
        self.point_read = true;
        chain::point_faults(&named.value)?;
        unless(self.profile.has_point(&named.value), PROFILE)?;
        unless(!self.step_refused, EARLIER)?;
        let moved = chain::forward_checked(&self.chain, named.value)?;
        let [x, y, z] = moved.position;
        let (issue, order) = (moved.issue, moved.order);
        let (datum, epoch) = (moved.at.datum, moved.at.epoch);
        let id = String::from_utf8_lossy(named.id);
        Ok(format!("P\t{id}\t{issue}\t{order}\t{datum}\t{epoch}\t{x}\t{y}\t{z}\n"))
    }
}
