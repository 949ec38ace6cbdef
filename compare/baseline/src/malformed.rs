//! What is wrong with a line that the reader did not take: looked at a second time, since such lines are few.

use crate::check::{Fault, COUNT, ID, LENGTH, LETTER, PLAIN};

/// As many fields as the longest form has, and one more.
const MOST: usize = 15;

struct Fields<'a> {
    body: &'a [u8],
    /// Where the first fields end.
    ends: [usize; MOST],
    count: usize,
}

impl<'a> Fields<'a> {
    fn new(body: &'a [u8]) -> Fields<'a> {
        let mut fields = Fields { body, ends: [body.len(); MOST], count: 1 };
        for (at, _) in body.iter().enumerate().filter(|(_, b)| **b == b'\t') {
            if fields.count <= MOST {
                fields.ends[fields.count - 1] = at;
            }
            fields.count += 1;
        }
        fields
    }

    fn start(&self, index: usize) -> usize {
        if index == 0 {
            0
        } else {
            self.ends[index - 1] + 1
        }
    }

    fn bytes(&self, index: usize) -> &'a [u8] {
        &self.body[self.start(index)..self.ends[index]]
    }

    /// The letter, where the field is one of these.
    fn letter(&self, index: usize, known: &[u8]) -> Option<u8> {
        match self.bytes(index) {
            [letter] if known.contains(letter) => Some(*letter),
            _ => None,
        }
    }

    fn fault(&self, number: u8, index: usize) -> Fault {
        Fault { number, place: self.start(index) as u8 }
    }
}

/// 18 at the length without a line feed, for a line that is too long or has none.
pub fn length(line: &[u8]) -> Option<Fault> {
    let ended = line.last() == Some(&b'\n');
    let length = line.len() - usize::from(ended);
    let place = length.min(200) as u8;
    (!ended || line.len() > 200).then_some(Fault { number: LENGTH, place })
}

/// For a line that is of none of the forms which these letters begin.
pub fn fault(line: &[u8], letters: &[u8]) -> Fault {
    if let Some(fault) = length(line) {
        return fault;
    }
    let length = line.len() - 1;
    let fields = Fields::new(&line[..length]);
    let Some(letter) = fields.letter(0, letters) else { return fields.fault(LETTER, 0) };
    let (count, id, convention) = match letter {
        b'P' => (9, true, false),
        b'G' => (4, true, false),
        b'O' => (6, false, false),
        b'E' => (2, false, false),
        _ if fields.count < 2 => (2, false, false),
        _ => match fields.letter(1, b"TVBF") {
            None => return fields.fault(LETTER, 1),
            Some(b'B') => (14, false, true),
            Some(b'F') => (6, false, false),
            Some(_) => (9, false, false),
        },
    };
    if convention && fields.count > 6 && fields.letter(6, b"PC").is_none() {
        return fields.fault(LETTER, 6);
    }
    if fields.count != count {
        return Fault { number: COUNT, place: length as u8 };
    }
    if id && !is_id(fields.bytes(1)) {
        return fields.fault(ID, 1);
    }
    let first = if id || letter == b'S' { 2 } else { 1 };
    let bad = |i: &usize| !(convention && *i == 6) && !is_plain(fields.bytes(*i));
    let place = (first..count).find(bad).unwrap_or(0);
    fields.fault(PLAIN, place)
}

/// For the header of a grid that is not of its form.
pub fn grid_header(line: &[u8]) -> Fault {
    if let Some(fault) = length(line) {
        return fault;
    }
    let fields = Fields::new(&line[..line.len() - 1]);
    if fields.letter(0, b"G").is_none() {
        return fields.fault(LETTER, 0);
    }
    numbers(&fields, 1, 6)
}

/// For a node's line that is not of its form.
pub fn node(line: &[u8]) -> Fault {
    match length(line) {
        Some(fault) => fault,
        None => numbers(&Fields::new(&line[..line.len() - 1]), 0, 3),
    }
}

/// So many fields, all from the first on numbers.
fn numbers(fields: &Fields, first: usize, count: usize) -> Fault {
    if fields.count != count {
        return Fault { number: COUNT, place: fields.body.len() as u8 };
    }
    let place = (first..count).find(|i| !is_plain(fields.bytes(*i))).unwrap_or(0);
    fields.fault(PLAIN, place)
}

fn is_id(field: &[u8]) -> bool {
    (1..=16).contains(&field.len()) && field.iter().all(|b| matches!(b, b'A'..=b'Z' | b'0'..=b'9' | b'-'))
}

fn is_plain(field: &[u8]) -> bool {
    match field {
        b"0" => true,
        [b'-', b'1'..=b'9', rest @ ..] | [b'1'..=b'9', rest @ ..] => rest.iter().all(u8::is_ascii_digit),
        _ => false,
    }
}
