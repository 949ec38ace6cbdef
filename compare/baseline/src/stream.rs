//! A sheet in fragments, over a state of numbers that the caller keeps.

use crate::check::{Fault, Kind, Step, ENDED, LENGTH, LIMIT};
use crate::malformed;
use crate::numbers::{chain, sound};
use crate::read::Reader;
use crate::sheet::{Sheet, LETTERS};
use crate::write;

pub const STATE: usize = 7 + 8 * 13;
pub const LINE: usize = 200;
const MOST_LINES: i64 = 1_000_000;

/// The caller's numbers and the room for one line.
pub struct State<'a> {
    pub numbers: &'a mut [i64; STATE],
    pub line: &'a mut [u8; LINE],
}

impl State<'_> {
    fn rows(&self) -> &[i64] {
        &self.numbers[7..7 + 13 * self.numbers[6] as usize]
    }

    /// 29 for a state that is none.
    fn check(&self) -> Result<(), u8> {
        let [lines, kept, refused, closed, finished, year, steps, ..] = *self.numbers;
        let counts = (0..=MOST_LINES).contains(&lines)
            && (0..=LINE as i64).contains(&kept)
            && (0..=1).contains(&refused)
            && (0..=1).contains(&closed)
            && finished == 0
            && (0..=lines.min(8)).contains(&steps);
        if !counts || sound(year, self.rows()).is_err() {
            return Err(ENDED);
        }
        Ok(())
    }

    fn keep(&mut self, bytes: &[u8]) {
        let kept = self.numbers[1] as usize;
        let more = bytes.len().min(LINE - kept);
        self.line[kept..kept + more].copy_from_slice(&bytes[..more]);
        self.numbers[1] += more as i64;
    }

    /// What was taken of the fragment, and whether a line was answered.
    pub fn feed(&mut self, fragment: &[u8], out: &mut Vec<u8>) -> Result<(usize, bool), u8> {
        self.check()?;
        let Some(feed) = fragment.iter().position(|b| *b == b'\n') else {
            self.keep(fragment);
            return Ok((fragment.len(), false));
        };
        if self.numbers[1] == 0 && feed < LINE {
            self.answer(&fragment[..=feed], out);
        } else {
            self.keep(&fragment[..feed]);
            let kept = self.numbers[1] as usize;
            let mut line = [0; LINE];
            line[..kept].copy_from_slice(&self.line[..kept]);
            if kept < LINE {
                line[kept] = b'\n';
                self.answer(&line[..=kept], out);
            } else {
                self.no_line(&line, out);
            }
        }
        self.clear();
        Ok((feed + 1, true))
    }

    pub fn finish(&mut self, out: &mut Vec<u8>) -> Result<(), u8> {
        self.check()?;
        let kept = self.numbers[1] as usize;
        if kept > 0 {
            let line = *self.line;
            self.no_line(&line[..kept], out);
        }
        self.clear();
        self.numbers[4] = 1;
        Ok(())
    }

    fn clear(&mut self) {
        self.line.fill(0);
        self.numbers[1] = 0;
    }

    /// The line's number, or its refusal where it is past the limit.
    fn next(&mut self, out: &mut Vec<u8>) -> Option<i64> {
        if self.numbers[0] == MOST_LINES {
            write::refusal(out, MOST_LINES + 1, LIMIT.into());
            return None;
        }
        self.numbers[0] += 1;
        Some(self.numbers[0])
    }

    fn no_line(&mut self, bytes: &[u8], out: &mut Vec<u8>) {
        let Some(place) = self.next(out) else { return };
        self.numbers[2] |= i64::from(matches!(bytes[0], b'S' | b'E'));
        write::refusal(out, place, Fault { number: LENGTH, place: bytes.len() as u8 });
    }

    /// A line with its line feed, by the sheet's rules.
    fn answer(&mut self, line: &[u8], out: &mut Vec<u8>) {
        let Some(place) = self.next(out) else { return };
        let [_, _, refused, closed, _, year, ..] = *self.numbers;
        let profile = sound(year, &[]).expect("checked");
        let chain = chain(profile, self.rows()).expect("checked");
        let mut sheet = Sheet { profile, chain, refused: refused == 1, points: closed == 1 };
        let answer = if line[..line.len() - 1].contains(&b'\n') {
            // Only a state that no sheet makes keeps a line feed; it is a byte of its field.
            sheet.refused |= matches!(line[0], b'S' | b'E');
            Err(malformed::fault(line, LETTERS))
        } else if line[0] == b'S' {
            let read = Reader::only(line, LETTERS, Reader::step);
            let answer = read.and_then(|step| sheet.step(&step).map(|()| step).map_err(Fault::from));
            sheet.refused |= answer.is_err();
            answer.map(|step| self.push(&step))
        } else {
            sheet.line(&mut Reader::new(line), place, out)
        };
        self.numbers[2] = i64::from(sheet.refused);
        self.numbers[3] = i64::from(sheet.points);
        self.numbers[5] = sheet.profile.year();
        if let Err(fault) = answer {
            write::refusal(out, place, fault);
        }
    }

    fn push(&mut self, step: &Step) {
        let (letter, convention) = match step.kind {
            Kind::Shift => (b'T', 0),
            Kind::Velocity => (b'V', 0),
            Kind::Rotated { sign: 1 } => (b'B', b'P'),
            Kind::Rotated { .. } => (b'B', b'C'),
            Kind::Frame | Kind::Unknown => (b'F', 0),
        };
        let at = 7 + 13 * self.numbers[6] as usize;
        let row = &mut self.numbers[at..at + 13];
        let (before, after) = (step.before, step.after);
        row[..6].copy_from_slice(&[
            letter.into(),
            convention.into(),
            before.datum,
            before.epoch,
            after.datum,
            after.epoch,
        ]);
        row[6..].copy_from_slice(&step.numbers);
        self.numbers[6] += 1;
    }
}
