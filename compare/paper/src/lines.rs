//! Document 01, "Lines", and request A2: the forms of the lines. What is not of its form is refused with 18 to
//! 22, and that order goes over the whole line: a later field's 19 comes before an earlier field's 21.

use crate::angle::Origin;
use crate::chain::Point;
use crate::refusal::{Fault, Refusal, COUNT, ID, LENGTH, LETTER, PLAIN};
use crate::step::{Convention, Kind, Realization, Step};

pub const LONGEST: usize = 200;

struct Field<'a> {
    /// The byte of the line, from 0, where it begins.
    at: usize,
    bytes: &'a [u8],
}

struct Line<'a> {
    fields: Vec<Field<'a>>,
    /// Without the line feed.
    length: usize,
}

fn offends<T>(number: Refusal, place: usize) -> Result<T, Fault> {
    Err(Fault { number, place })
}

impl<'a> Line<'a> {
    /// 18: the line ends in a line feed and has at most 200 bytes with it. A line feed before the end is a byte of its
    /// field.
    fn cut(line: &'a [u8]) -> Result<Line<'a>, Fault> {
        let body = line.strip_suffix(b"\n");
        let length = body.unwrap_or(line).len();
        let Some(body) = body.filter(|_| line.len() <= LONGEST) else {
            return offends(LENGTH, length.min(LONGEST));
        };
        let mut at = 0;
        let mut fields = Vec::new();
        for bytes in body.split(|&byte| byte == b'\t') {
            fields.push(Field { at, bytes });
            at += bytes.len() + 1;
        }
        Ok(Line { fields, length })
    }

    /// 19: the field, where the line has it, is one of these letters.
    fn letter(&self, index: usize, known: &[u8]) -> Result<Option<u8>, Fault> {
        let Some(field) = self.fields.get(index) else { return Ok(None) };
        match field.bytes {
            [letter] if known.contains(letter) => Ok(Some(*letter)),
            _ => offends(LETTER, field.at),
        }
    }

    /// 20.
    fn count(&self, count: usize) -> Result<(), Fault> {
        if self.fields.len() == count {
            Ok(())
        } else {
            offends(COUNT, self.length)
        }
    }

    /// 21.
    fn id(&self, index: usize) -> Result<&'a [u8], Fault> {
        let field = &self.fields[index];
        id(field.bytes).map_or(offends(ID, field.at), Ok)
    }

    /// 22: the numbers of so many fields, the leftmost first.
    fn numbers<const N: usize>(&self, from: usize) -> Result<[i64; N], Fault> {
        let mut values = [0; N];
        for (value, field) in values.iter_mut().zip(&self.fields[from..]) {
            *value = number(field.bytes).map_or(offends(PLAIN, field.at), Ok)?;
        }
        Ok(values)
    }
}

/// Decimal, no plus, no spare zeros, no -0. A number of more than 18 digits is out of every range, so
/// the greatest i64 stands for it.
fn number(field: &[u8]) -> Option<i64> {
    let (negative, digits) = match field {
        [b'-', rest @ ..] => (true, rest),
        _ => (false, field),
    };
    let plain = !digits.is_empty() && digits.iter().all(u8::is_ascii_digit);
    if !plain || (digits[0] == b'0' && (digits.len() > 1 || negative)) {
        return None;
    }
    let size = if digits.len() > 18 {
        i64::MAX
    } else {
        digits.iter().fold(0, |sum, &digit| 10 * sum + i64::from(digit - b'0'))
    };
    Some(if negative { -size } else { size })
}

/// 1 to 16 of A-Z, 0-9, hyphen.
fn id(field: &[u8]) -> Option<&[u8]> {
    let allowed = |byte: &u8| matches!(byte, b'A'..=b'Z' | b'0'..=b'9' | b'-');
    let good = (1..=16).contains(&field.len()) && field.iter().all(allowed);
    good.then_some(field)
}

#[derive(Clone, Copy, Debug, PartialEq, Eq)]
pub struct Named<'a, T> {
    pub id: &'a [u8],
    pub value: T,
}

/// P, id, issue, order, datum, epoch, X, Y, Z.
pub fn point(line: &[u8]) -> Result<Named<'_, Point>, Fault> {
    let line = Line::cut(line)?;
    line.letter(0, b"P")?;
    line.count(9)?;
    let id = line.id(1)?;
    let [issue, order, datum, epoch, x, y, z] = line.numbers(2)?;
    let at = Realization { datum, epoch };
    Ok(Named { id, value: Point { issue, order, at, position: [x, y, z] } })
}

/// S, kind, datum, epoch, datum, epoch, then what the kind asks: three numbers; or P or C, dx, dy, dz, rx, ry, rz, s; or
/// nothing. A missing kind or convention is 20.
pub fn step(line: &[u8]) -> Result<Step, Fault> {
    let line = Line::cut(line)?;
    line.letter(0, b"S")?;
    let Some(letter) = line.letter(1, b"TVBF")? else { return offends(COUNT, line.length) };
    let convention = if letter == b'B' { line.letter(6, b"PC")? } else { None };
    line.count(match letter {
        b'B' => 14,
        b'F' => 6,
        _ => 9,
    })?;
    let [d1, e1, d2, e2] = line.numbers(2)?;
    let kind = match letter {
        b'T' => Kind::Shift(line.numbers(6)?),
        b'V' => Kind::Velocity(line.numbers(6)?),
        b'B' => bursa_wolf(convention, line.numbers(7)?),
        _ => Kind::Frame,
    };
    Ok(Step {
        kind,
        before: Realization { datum: d1, epoch: e1 },
        after: Realization { datum: d2, epoch: e2 },
    })
}

fn bursa_wolf(convention: Option<u8>, [dx, dy, dz, rx, ry, rz, scale]: [i64; 7]) -> Kind {
    let convention = match convention {
        Some(b'C') => Convention::CoordinateFrame,
        _ => Convention::PositionVector,
    };
    Kind::BursaWolf { convention, shift: [dx, dy, dz], rotation: [rx, ry, rz], scale }
}

/// E, year: request A10.
pub fn edition(line: &[u8]) -> Result<i64, Fault> {
    let line = Line::cut(line)?;
    line.letter(0, b"E")?;
    line.count(2)?;
    let [year] = line.numbers(1)?;
    Ok(year)
}

/// O, ellipsoid, latitude, longitude, FE, FN.
pub fn origin(line: &[u8]) -> Result<Origin, Fault> {
    let line = Line::cut(line)?;
    line.letter(0, b"O")?;
    line.count(6)?;
    let [ellipsoid, latitude, longitude, false_easting, false_northing] = line.numbers(1)?;
    Ok(Origin { ellipsoid, latitude, longitude, false_easting, false_northing })
}

/// G, id, latitude, longitude.
pub fn geodetic(line: &[u8]) -> Result<Named<'_, [i64; 2]>, Fault> {
    let line = Line::cut(line)?;
    line.letter(0, b"G")?;
    line.count(4)?;
    Ok(Named { id: line.id(1)?, value: line.numbers(2)? })
}

/// G, latitude, longitude, rows, columns, mesh: the header of a velocity grid (request A9).
pub fn grid(line: &[u8]) -> Result<[i64; 5], Fault> {
    let line = Line::cut(line)?;
    line.letter(0, b"G")?;
    line.count(6)?;
    line.numbers(1)
}

/// A node of a grid: east, north, up, or a single `-`.
pub fn node(line: &[u8]) -> Result<Option<[i64; 3]>, Fault> {
    let line = Line::cut(line)?;
    if matches!(line.fields.as_slice(), [Field { bytes: b"-", .. }]) {
        return Ok(None);
    }
    line.count(3)?;
    line.numbers(0).map(Some)
}

/// A line whose first letter no reader of its program knows: 18, then 19 at its first byte.
pub fn unknown(line: &[u8]) -> Fault {
    Line::cut(line).err().unwrap_or(Fault { number: LETTER, place: 0 })
}

/// The lines of an input. A last piece with no line feed is a line of its own, and its form refuses it.
pub fn split(input: &[u8]) -> impl Iterator<Item = &[u8]> {
    input.split_inclusive(|&byte| byte == b'\n')
}

#[cfg(test)]
mod tests {
    use super::{id, number};

    #[test]
    fn plain_numbers() {
        assert_eq!(number(b"0"), Some(0));
        assert_eq!(number(b"-12"), Some(-12));
        assert_eq!(number(b"999999999999999999"), Some(999_999_999_999_999_999));
        assert_eq!(number(b"18446744073709551617"), Some(i64::MAX));
        assert_eq!(number(b"-18446744073709551617"), Some(-i64::MAX));
        for bad in ["", "-", "-0", "00", "01", "-01", "+1", "1 ", " 1", "1\r", "--1", "1-", "x"] {
            assert_eq!(number(bad.as_bytes()), None, "{bad:?}");
        }
    }

    #[test]
    fn ids() {
        assert!(id(b"A").is_some() && id(b"-").is_some() && id(b"0123456789ABCDEF").is_some());
        for bad in ["", "a", "A B", "0123456789ABCDEFG", "A_"] {
            assert_eq!(id(bad.as_bytes()), None, "{bad:?}");
        }
    }
}
