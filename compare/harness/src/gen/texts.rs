//! What is done to whole inputs: single bytes damaged, random bytes, and sizes at the limit.

use crate::rng::Rng;

/// The bytes that mean something to either program.
const ALPHABET: &[u8] = b"PSEOGTVBFC\t\t\t\n\n0123456789-AZ a\r\0+";

pub fn byte(rng: &mut Rng) -> u8 {
    if rng.once_in(4) {
        rng.word() as u8
    } else {
        rng.pick(ALPHABET)
    }
}

/// One byte changed, put in, taken out, or two exchanged; or the end cut off.
pub fn damage(rng: &mut Rng, text: &mut Vec<u8>) {
    if text.is_empty() {
        text.push(byte(rng));
        return;
    }
    let place = rng.index(text.len());
    match rng.below(8) {
        0..=2 => text[place] = byte(rng),
        3 => text.insert(place, byte(rng)),
        4 => drop(text.remove(place)),
        5 => text[place] ^= 1 << rng.below(8),
        6 => {
            let other = rng.index(text.len());
            text.swap(place, other);
        }
        _ => text.truncate(place),
    }
}

pub fn random(rng: &mut Rng) -> Vec<u8> {
    let length = rng.small(2_000);
    let any = rng.once_in(2);
    (0..length).map(|_| if any { rng.word() as u8 } else { byte(rng) }).collect()
}

/// 65,535, 65,536 or 65,537 bytes, or far more, out of a text repeated.
pub fn at_the_limit(rng: &mut Rng, text: &[u8]) -> Vec<u8> {
    let length = rng.pick(&[65_535, 65_536, 65_536, 65_537, 65_600, 131_072, 200_000]);
    let seed = if text.is_empty() { b"\n" } else { text };
    seed.iter().copied().cycle().take(length).collect()
}
