//! The sheet: steps, then points.

use crate::check::{self, Fault, Place, Profile, Step, EARLIER, JOIN, NINTH, ORDER, PROFILE};
use crate::program;
use crate::read::Reader;
use crate::steps::Chain;
use crate::write;

pub(crate) const LETTERS: &[u8] = b"SPE";

pub fn sheet(input: &[u8], out: &mut Vec<u8>) {
    let mut sheet = Sheet::default();
    program::run(input, out, |reader, place, out| sheet.line(reader, place, out));
}

#[derive(Default)]
pub(crate) struct Sheet {
    pub profile: Profile,
    pub chain: Chain,
    pub refused: bool,
    pub points: bool,
}

impl Sheet {
    pub fn line(&mut self, reader: &mut Reader, place: i64, out: &mut Vec<u8>) -> Result<(), Fault> {
        match reader.first() {
            Some(b'S') => {
                let read = reader.line(LETTERS, Reader::step);
                let answer = read.and_then(|step| self.step(&step).map_err(Fault::from));
                self.refused |= answer.is_err();
                answer
            }
            Some(b'E') => {
                let read = reader.line(LETTERS, Reader::edition);
                let answer = read.and_then(|year| self.edition(year, place).map_err(Fault::from));
                self.refused |= answer.is_err();
                answer
            }
            Some(b'P') => self.point(reader, out),
            _ => Err(reader.unknown()),
        }
    }

    fn edition(&mut self, year: i64, place: i64) -> Result<(), u8> {
        if place != 1 {
            return Err(ORDER);
        }
        self.profile = Profile::of(year)?;
        Ok(())
    }

    pub fn step(&mut self, step: &Step) -> Result<(), u8> {
        let fault = check::step(self.profile, step);
        if fault != 0 {
            Err(fault)
        } else if self.refused {
            Err(EARLIER)
        } else if self.points {
            Err(ORDER)
        } else if !self.chain.joins(step) {
            Err(JOIN)
        } else if self.chain.len() == 8 {
            Err(NINTH)
        } else {
            self.chain.push(step);
            Ok(())
        }
    }

    fn point(&mut self, reader: &mut Reader, out: &mut Vec<u8>) -> Result<(), Fault> {
        let (id, point) = reader.line(LETTERS, Reader::point)?;
        self.points = true;
        let fault = check::point(&point);
        if fault != 0 {
            return Err(fault.into());
        }
        if !self.profile.has(point.place.datum) {
            return Err(PROFILE.into());
        }
        if self.refused {
            return Err(EARLIER.into());
        }
        let moved = self.chain.forward(point)?;
        let [x, y, z] = moved.xyz;
        let Place { datum, epoch } = moved.place;
        write::line(out, b'P', id, &[moved.issue, moved.order, datum, epoch, x, y, z]);
        Ok(())
    }
}
