//! Document 01, the plan program: one origin, then geodetic points onto its Cassini grid.

use crate::angle::{self, Origin};
use crate::lines;
use crate::program::{self, Reader};
use crate::refusal::{unless, Fault, ANGLE, EARLIER, ORDER};

pub fn plan(input: &[u8]) -> Vec<u8> {
    program::run(input, Plan::default())
}

#[derive(Default)]
struct Plan {
    lines_read: u64,
    origin: Option<Origin>,
}

impl Reader for Plan {
    fn line(&mut self, line: &[u8]) -> Result<String, Fault> {
        self.lines_read += 1;
        match line.first() {
            Some(b'O') => self.origin(line),
            Some(b'G') => self.geodetic(line),
            _ => Err(lines::unknown(line)),
        }
    }
}

impl Plan {
    /// Order: 18 to 22, 7, 2, 12. An accepted origin prints nothing.
    fn origin(&mut self, line: &[u8]) -> Result<String, Fault> {
        let origin = lines::origin(line)?;
        unless(self.lines_read == 1, ORDER)?;
        angle::origin_faults(&origin)?;
        self.origin = Some(origin);
        Ok(String::new())
    }

    /// Order: 18 to 22, 8, 12, 13, then 14.
    fn geodetic(&mut self, line: &[u8]) -> Result<String, Fault> {
        let named = lines::geodetic(line)?;
        let origin = self.origin.ok_or(EARLIER)?;
        let [latitude, longitude] = named.value;
        unless(angle::angles_in_range(latitude, longitude), ANGLE)?;
        let [easting, northing] = angle::cassini_millimetres(&origin, latitude, longitude)?;
        let id = String::from_utf8_lossy(named.id);
        Ok(format!("C\t{id}\t{easting}\t{northing}\n"))
    }
}
