//! Request A8: a sheet that arrives in fragments of any length.

use crate::chain;
use crate::numbers::{self, STEP};
use crate::profile::Profile;
use crate::program::{refused, Reader};
use crate::ranges::between;
use crate::refusal::{unless, Refusal, ENDED, LIMIT};
use crate::sheet::Sheet;

pub const MOST_LINES: u64 = 1_000_000;
/// Room for one line.
pub const ROOM: usize = 200;

/// What a call took of its fragment, and the answer of the line that it completed: an empty one where the line prints
/// nothing, none where no line was completed.
#[derive(Clone, Debug, PartialEq, Eq)]
pub struct Fed {
    pub taken: usize,
    pub answer: Option<String>,
}

#[derive(Clone, Default)]
pub struct Stream {
    sheet: Sheet,
    /// The first 200 bytes of the line that is open, its line feed not yet there. With 200 it is too long.
    open: Vec<u8>,
    finished: bool,
}

impl Stream {
    /// Takes up to and with the first line feed, or all.
    pub fn feed(&mut self, fragment: &[u8]) -> Result<Fed, Refusal> {
        unless(!self.finished, ENDED)?;
        let Some(at) = fragment.iter().position(|&byte| byte == b'\n') else {
            self.keep(fragment);
            return Ok(Fed { taken: fragment.len(), answer: None });
        };
        self.keep(&fragment[..at]);
        Ok(Fed { taken: at + 1, answer: Some(self.answer(true)) })
    }

    /// The end of the sheet: a line left open has no line feed.
    pub fn finish(&mut self) -> Result<String, Refusal> {
        unless(!self.finished, ENDED)?;
        self.finished = true;
        Ok(if self.open.is_empty() { String::new() } else { self.answer(false) })
    }

    /// Bytes past the room for one line are skipped.
    fn keep(&mut self, bytes: &[u8]) {
        let room = ROOM - self.open.len();
        self.open.extend(bytes.iter().take(room));
    }

    /// The open line by the sheet rules: with its line feed, or 18. A line past the limit is not read and changes nothing.
    fn answer(&mut self, ended: bool) -> String {
        let mut line = std::mem::take(&mut self.open);
        if self.sheet.lines_read == MOST_LINES {
            return refused(MOST_LINES as usize + 1, LIMIT.into());
        }
        let answer = if ended && line.len() < ROOM {
            line.push(b'\n');
            self.sheet.line(&line)
        } else {
            Err(self.sheet.no_line(&line))
        };
        answer.unwrap_or_else(|fault| refused(self.sheet.lines_read as usize, fault))
    }
}

/// Numbers to a state: lines answered, bytes kept of the open line, refused, closed, finished (0 or 1 each), the year
/// of the profile, the number of steps, and 13 numbers for each of eight.
pub const STATE: usize = 7 + 8 * STEP;

/// A state of numbers, with the room for one line. 29 where it is finished, a count is out of range or the chain bad.
/// No line gives more than one step, so there are no more steps than lines answered.
fn load(state: &[i64; STATE], room: &[u8; ROOM]) -> Result<Stream, Refusal> {
    let [lines, kept, refused, closed, finished, year, steps] = *state.first_chunk().expect("long enough");
    let counts = between(lines, 0, MOST_LINES as i64)
        && between(kept, 0, ROOM as i64)
        && between(steps, 0, lines.min(chain::MOST_STEPS as i64));
    let flags = [refused, closed, finished].iter().all(|&flag| between(flag, 0, 1));
    unless(counts && flags && finished == 0, ENDED)?;
    let chain = numbers::steps(&state[7..7 + steps as usize * STEP]).expect("whole rows");
    let profile = chain::chain_faults(year, &chain).map_err(|_| ENDED)?;
    Ok(Stream {
        sheet: Sheet {
            lines_read: lines as u64,
            profile,
            chain,
            step_refused: refused == 1,
            point_read: closed == 1,
        },
        open: room[..kept as usize].to_vec(),
        finished: false,
    })
}

/// A step that was taken in stands in its places, with 0 where its kind has no number; the others stay as they were.
fn store(stream: &Stream, state: &mut [i64; STATE]) {
    let sheet = &stream.sheet;
    let before = state[6] as usize;
    let flags = [sheet.step_refused, sheet.point_read, stream.finished].map(i64::from);
    state[0] = sheet.lines_read as i64;
    state[1] = stream.open.len() as i64;
    state[2..5].copy_from_slice(&flags);
    state[5] = if sheet.profile == Profile::Circular2009 { 2009 } else { 2021 };
    state[6] = sheet.chain.len() as i64;
    for (place, step) in sheet.chain.iter().enumerate().skip(before) {
        state[7 + place * STEP..][..STEP].copy_from_slice(&numbers::step_row(step));
    }
}

/// One call on a state of numbers. The room is cleared with each line that is answered.
pub fn feed(state: &mut [i64; STATE], room: &mut [u8; ROOM], fragment: &[u8]) -> Result<Fed, Refusal> {
    let mut stream = load(state, room)?;
    let fed = stream.feed(fragment)?;
    if fed.answer.is_some() {
        room.fill(0);
    } else {
        room[..stream.open.len()].copy_from_slice(&stream.open);
    }
    store(&stream, state);
    Ok(fed)
}

pub fn finish(state: &mut [i64; STATE], room: &mut [u8; ROOM]) -> Result<String, Refusal> {
    let mut stream = load(state, room)?;
    let text = stream.finish()?;
    room.fill(0);
    store(&stream, state);
    Ok(text)
}

/// All zeros but the profile's year: a chain without a mark is of 2021.
pub fn fresh() -> [i64; STATE] {
    let mut state = [0; STATE];
    state[5] = 2021;
    state
}
