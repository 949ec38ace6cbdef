//! Document 01, "Later of two", and request A2: a refusal says which line and where in it.

use crate::chain::{point_faults, Point};
use crate::lines::{self, Named};
use crate::refusal::{Fault, Refusal, IDS, SAME_ISSUE};

#[derive(Clone, Copy, Debug, PartialEq, Eq)]
pub enum Which {
    First,
    Second,
}

#[derive(Clone, Copy, Debug, PartialEq, Eq)]
pub struct Refused {
    pub number: Refusal,
    /// 1 or 2; 0 where neither line is at fault by itself.
    pub line: i64,
    /// The byte in that line for 18 to 22; 0 otherwise.
    pub place: usize,
}

/// Order: the first line's 18 to 22, 2, 3, then the second's, then 16, 17.
pub fn later(first: &[u8], second: &[u8]) -> Result<Which, Refused> {
    let of = |line: i64| move |Fault { number, place }: Fault| Refused { number, line, place };
    let both = |number: Refusal| Refused { number, line: 0, place: 0 };
    let one = read(first).map_err(of(1))?;
    let two = read(second).map_err(of(2))?;
    if one.id != two.id {
        return Err(both(IDS));
    }
    if first == second {
        return Ok(Which::First);
    }
    if one.value.issue == two.value.issue {
        return Err(both(SAME_ISSUE));
    }
    Ok(if one.value.issue > two.value.issue { Which::First } else { Which::Second })
}

fn read(line: &[u8]) -> Result<Named<'_, Point>, Fault> {
    let named = lines::point(line)?;
    point_faults(&named.value)?;
    Ok(named)
}
