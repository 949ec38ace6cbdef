//! The later of two point lines.

use crate::check::{self, Fault, IDS, SAME_ISSUE};
use crate::read::Reader;

/// 1 or 2; or the number, the line at fault (0 for neither) and the place in it.
pub fn later(first: &[u8], second: &[u8]) -> Result<i64, [i64; 3]> {
    let of = |line: i64| move |fault: Fault| [i64::from(fault.number), line, i64::from(fault.place)];
    let (id, issue) = read(first).map_err(of(1))?;
    let (other_id, other_issue) = read(second).map_err(of(2))?;
    if id != other_id {
        Err([i64::from(IDS), 0, 0])
    } else if issue != other_issue {
        Ok(if issue > other_issue { 1 } else { 2 })
    } else if first == second {
        Ok(1)
    } else {
        Err([i64::from(SAME_ISSUE), 0, 0])
    }
}

fn read(line: &[u8]) -> Result<(&[u8], i64), Fault> {
    let (id, point) = Reader::only(line, b"P", Reader::point)?;
    match check::point(&point) {
        0 => Ok((id, point.issue)),
        fault => Err(fault.into()),
    }
}
