//! A reader that goes once over each line, field by field.

use crate::check::{Fault, Kind, Place, Point, Step, LETTER};
use crate::malformed;

const TAB: u8 = b'\t';
const FEED: u8 = b'\n';

/// What the first eight bytes say, if they are digits: pairs, then fours, then all, side by side in one word.
#[inline]
fn eight_digits(bytes: &[u8]) -> Option<u64> {
    let word = u64::from_le_bytes(*bytes.first_chunk()?);
    let tens = 0xf0f0_f0f0_f0f0_f0f0;
    let zeros = 0x3030_3030_3030_3030;
    if word & tens != zeros || word.wrapping_add(0x0606_0606_0606_0606) & tens != zeros {
        return None;
    }
    let ones = word - zeros;
    let pairs = (ones * 10 + (ones >> 8)) & 0x00ff_00ff_00ff_00ff;
    let fours = (pairs * 100 + (pairs >> 16)) & 0x0000_ffff_0000_ffff;
    Some((fours * 10_000 + (fours >> 32)) & 0xffff_ffff)
}

pub struct Reader<'a> {
    bytes: &'a [u8],
    at: usize,
}

impl<'a> Reader<'a> {
    pub fn new(bytes: &'a [u8]) -> Reader<'a> {
        Reader { bytes, at: 0 }
    }

    /// The next line's first byte.
    pub fn first(&self) -> Option<u8> {
        self.bytes.get(self.at).copied()
    }

    pub fn done(&self) -> bool {
        self.at >= self.bytes.len()
    }

    /// Reads a line by its fields and leaves the reader behind it, good form or not; the letters are those that
    /// begin a line here.
    #[inline]
    pub fn line<T>(
        &mut self,
        letters: &[u8],
        fields: impl FnOnce(&mut Self) -> Option<T>,
    ) -> Result<T, Fault> {
        let start = self.at;
        match fields(self) {
            Some(value) if self.at - start <= 200 => Ok(value),
            Some(_) => Err(malformed::fault(&self.bytes[start..self.at], letters)),
            None => {
                self.skip();
                Err(malformed::fault(&self.bytes[start..self.at], letters))
            }
        }
    }

    /// The whole of the bytes, which are one line: what is behind its first line feed belongs to it too.
    pub fn only<T>(
        bytes: &'a [u8],
        letters: &[u8],
        fields: impl FnOnce(&mut Self) -> Option<T>,
    ) -> Result<T, Fault> {
        let mut reader = Reader::new(bytes);
        match fields(&mut reader) {
            Some(value) if reader.done() && bytes.len() <= 200 => Ok(value),
            _ => Err(malformed::fault(bytes, letters)),
        }
    }

    /// A line of a grid; the whole line's bytes where it is not of its form.
    #[inline]
    pub(crate) fn by<T>(&mut self, fields: impl FnOnce(&mut Self) -> Option<T>) -> Result<T, &'a [u8]> {
        let start = self.at;
        match fields(self) {
            Some(value) if self.at - start <= 200 => Ok(value),
            Some(_) => Err(&self.bytes[start..self.at]),
            None => {
                // A field may have been read past a line feed's place: the line is looked for from its start.
                self.at = start;
                self.skip();
                Err(&self.bytes[start..self.at])
            }
        }
    }

    pub(crate) fn grid_header(&mut self) -> Option<[i64; 5]> {
        self.known(b'G')?;
        self.numbers(FEED)
    }

    pub(crate) fn lone_hyphen(&mut self) -> bool {
        let alone = self.bytes[self.at..].starts_with(b"-\n");
        self.at += if alone { 2 } else { 0 };
        alone
    }

    pub(crate) fn three(&mut self) -> Option<[i64; 3]> {
        self.numbers(FEED)
    }

    /// A line that begins with none of the letters: too long, or 19 at its first byte.
    pub fn unknown(&mut self) -> Fault {
        let start = self.at;
        self.skip();
        malformed::length(&self.bytes[start..self.at]).unwrap_or(Fault { number: LETTER, place: 0 })
    }

    /// Behind the next line feed, or to the end.
    fn skip(&mut self) {
        let rest = &self.bytes[self.at..];
        self.at += rest.iter().position(|&b| b == FEED).map_or(rest.len(), |feed| feed + 1);
    }

    fn letter(&mut self, end: u8) -> Option<u8> {
        let letter = *self.bytes.get(self.at)?;
        if letter == FEED || self.bytes.get(self.at + 1) != Some(&end) {
            return None;
        }
        self.at += 2;
        Some(letter)
    }

    fn known(&mut self, letter: u8) -> Option<()> {
        (self.letter(TAB)? == letter).then_some(())
    }

    #[inline]
    fn number(&mut self, end: u8) -> Option<i64> {
        let negative = *self.bytes.get(self.at)? == b'-';
        let start = self.at + usize::from(negative);
        let mut at = start;
        let mut value: u64 = 0;
        while let Some(eight) = eight_digits(&self.bytes[at..]) {
            value = value.wrapping_mul(100_000_000).wrapping_add(eight);
            at += 8;
        }
        let after = loop {
            let byte = *self.bytes.get(at)?;
            let digit = byte.wrapping_sub(b'0');
            if digit > 9 {
                break byte;
            }
            value = value.wrapping_mul(10).wrapping_add(u64::from(digit));
            at += 1;
        };
        let digits = at - start;
        let spare_zero = self.bytes[start] == b'0' && (digits > 1 || negative);
        if digits == 0 || after != end || spare_zero {
            return None;
        }
        self.at = at + 1;
        let size = if digits > 18 { i64::MAX } else { value as i64 };
        Some(if negative { -size } else { size })
    }

    /// N numbers of which the last ends in the given byte.
    #[inline]
    fn numbers<const N: usize>(&mut self, end: u8) -> Option<[i64; N]> {
        let mut values = [0; N];
        for (place, value) in values.iter_mut().enumerate() {
            *value = self.number(if place + 1 == N { end } else { TAB })?;
        }
        Some(values)
    }

    #[inline]
    fn id(&mut self) -> Option<&'a [u8]> {
        let rest = &self.bytes[self.at..];
        let allowed = |b: &u8| matches!(b, b'A'..=b'Z' | b'0'..=b'9' | b'-');
        let length = rest.iter().take(17).take_while(|b| allowed(b)).count();
        if length == 0 || length > 16 || rest.get(length) != Some(&TAB) {
            return None;
        }
        self.at += length + 1;
        Some(&rest[..length])
    }

    pub fn point(&mut self) -> Option<(&'a [u8], Point)> {
        self.known(b'P')?;
        let id = self.id()?;
        let [issue, order, datum, epoch, x, y, z] = self.numbers(FEED)?;
        Some((id, Point { issue, order, place: Place { datum, epoch }, xyz: [x, y, z] }))
    }

    pub fn geodetic(&mut self) -> Option<(&'a [u8], [i64; 2])> {
        self.known(b'G')?;
        Some((self.id()?, self.numbers(FEED)?))
    }

    pub fn edition(&mut self) -> Option<i64> {
        self.known(b'E')?;
        self.number(FEED)
    }

    pub fn origin(&mut self) -> Option<[i64; 5]> {
        self.known(b'O')?;
        self.numbers(FEED)
    }

    pub fn step(&mut self) -> Option<Step> {
        self.known(b'S')?;
        let letter = self.letter(TAB)?;
        let [datum, epoch, datum_after] = self.numbers(TAB)?;
        let epoch_after = self.number(if letter == b'F' { FEED } else { TAB })?;
        let mut numbers = [0; 7];
        let kind = match letter {
            b'T' | b'V' => {
                numbers[..3].copy_from_slice(&self.numbers::<3>(FEED)?);
                if letter == b'T' {
                    Kind::Shift
                } else {
                    Kind::Velocity
                }
            }
            b'B' => {
                let sign = match self.letter(TAB)? {
                    b'P' => 1,
                    b'C' => -1,
                    _ => return None,
                };
                numbers = self.numbers(FEED)?;
                Kind::Rotated { sign }
            }
            b'F' => Kind::Frame,
            _ => return None,
        };
        let before = Place { datum, epoch };
        Some(Step { kind, before, after: Place { datum: datum_after, epoch: epoch_after }, numbers })
    }
}
