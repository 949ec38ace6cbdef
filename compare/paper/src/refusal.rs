//! Document 01, "Refusal numbers", and those that the change requests add.

pub type Refusal = u8;

pub const RANGE: Refusal = 2;
pub const DATUM_EPOCH: Refusal = 3;
pub const KIND_RULE: Refusal = 4;
pub const JOIN: Refusal = 5;
pub const NINTH: Refusal = 6;
pub const ORDER: Refusal = 7;
pub const EARLIER: Refusal = 8;
pub const START: Refusal = 9;
pub const OUTSIDE: Refusal = 10;
pub const LEFT: Refusal = 11;
pub const ANGLE: Refusal = 12;
pub const APART: Refusal = 13;
pub const FLOAT: Refusal = 14;
pub const LONG: Refusal = 15;
pub const IDS: Refusal = 16;
pub const SAME_ISSUE: Refusal = 17;
/// A line of over 200 bytes, or with no line feed at its end.
pub const LENGTH: Refusal = 18;
/// A first letter, step kind or convention that is unknown or empty.
pub const LETTER: Refusal = 19;
/// A wrong number of fields.
pub const COUNT: Refusal = 20;
pub const ID: Refusal = 21;
/// A number not in plain form.
pub const PLAIN: Refusal = 22;
/// An easting or northing handed in that is not finite, or is 10,000,000 m or more in size.
pub const PROJECTED: Refusal = 23;
/// A point off the grid, or a node of its cell without a value.
pub const NODES: Refusal = 24;
/// A step or a point that the chain's edition of the circular doesn't have.
pub const PROFILE: Refusal = 25;
/// An answer row shorter than the points.
pub const ROW: Refusal = 26;
/// A buffer of fewer than 200 bytes.
pub const BUFFER: Refusal = 27;
/// A line past the first million.
pub const LIMIT: Refusal = 28;
/// A call after the finish, or with a state that is none.
pub const ENDED: Refusal = 29;
/// Lines of a grid missing or left over.
pub const LINES: Refusal = 30;

/// A refusal of a line, and the byte where the first offending field begins: 0 for all but 18 to 22.
#[derive(Clone, Copy, Debug, PartialEq, Eq)]
pub struct Fault {
    pub number: Refusal,
    pub place: usize,
}

impl From<Refusal> for Fault {
    fn from(number: Refusal) -> Fault {
        Fault { number, place: 0 }
    }
}

/// Refuses with the number unless the test holds. The calls stand in the order of the paper's list,
/// so the first that fails decides.
pub fn unless(holds: bool, number: Refusal) -> Result<(), Refusal> {
    if holds {
        Ok(())
    } else {
        Err(number)
    }
}
