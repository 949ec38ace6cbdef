//! The frame of both programs.

use crate::check::Fault;
use crate::read::Reader;
use crate::write;
use std::io::{self, Read, Write};

pub const MOST_BYTES: usize = 65_536;

/// Appends the output for the input; the line function takes a line from the reader and prints it, or
/// gives its refusal.
#[inline]
pub fn run(
    input: &[u8],
    out: &mut Vec<u8>,
    mut line: impl FnMut(&mut Reader, i64, &mut Vec<u8>) -> Result<(), Fault>,
) {
    if input.len() > MOST_BYTES {
        write::refusal(out, 0, 15.into());
        return;
    }
    let mut reader = Reader::new(input);
    let mut place = 0;
    while !reader.done() {
        place += 1;
        if let Err(refused) = line(&mut reader, place, out) {
            write::refusal(out, place, refused);
        }
    }
}

pub fn main(program: fn(&[u8], &mut Vec<u8>)) -> io::Result<()> {
    let mut input = Vec::with_capacity(MOST_BYTES + 1);
    io::stdin().take(MOST_BYTES as u64 + 1).read_to_end(&mut input)?;
    let mut out = Vec::with_capacity(2 * input.len());
    program(&input, &mut out);
    io::stdout().write_all(&out)
}
