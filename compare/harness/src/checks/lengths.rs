//! Slices of the wrong length, through the C interface alone: 255 (-255 for sheets and plans), and
//! nothing written.

use crate::compare::{Comparison, Mismatch, Outcome};
use crate::product::{self, FLOAT_MARK, MARK};
use crate::subject::Asked;

pub fn run(c: &mut Comparison, count: u64) -> Outcome {
    for _ in 0..count {
        conversions(c)?;
        joins(c)?;
        others(c)?;
        projections(c)?;
        streams(c)?;
        texts(c)?;
    }
    Ok(())
}

/// 255 exactly where a length is wrong; then every place is as it was.
fn decide<T: PartialEq>(what: &str, number: i64, wrong: bool, out: &[T], mark: T) -> Outcome {
    let untouched = out.iter().all(|place| *place == mark);
    if (number == 255) == wrong && (!wrong || untouched) {
        return Ok(());
    }
    Err(Mismatch(format!("{what}: returned {number}, wrong length: {wrong}, untouched: {untouched}")))
}

fn conversions(c: &mut Comparison) -> Outcome {
    let steps = c.rng.index(10);
    let mut chain = c.chains.good(&mut c.rng, steps).numbers();
    if c.rng.once_in(2) {
        chain.truncate(c.rng.index(chain.len() + 1));
    }
    let mut length = |right: usize| if c.rng.once_in(2) { right } else { c.rng.index(right + 3) };
    let point = vec![1; length(7)];
    let mut out = vec![MARK; length(7)];
    let wrong = !chain.len().is_multiple_of(13) || point.len() != 7 || out.len() != 7;
    let what = format!("lengths {} {} {}", chain.len(), point.len(), out.len());
    // The length comes before the year too.
    let profile = c.rng.pick(&[2009, 2021, 2010]);
    let number = product::forward(profile, &chain, &point, &mut out);
    decide(&format!("forward {what}"), number, wrong, &out, MARK)?;
    let mut out = vec![MARK; out.len()];
    let number = product::inverse(profile, &chain, &point, &mut out);
    decide(&format!("inverse {what}"), number, wrong, &out, MARK)
}

fn joins(c: &mut Comparison) -> Outcome {
    let rows = |rng: &mut crate::rng::Rng| {
        let steps = rng.index(5);
        let mut rows = c.chains.good(rng, steps).numbers();
        if rng.once_in(3) {
            rows.truncate(rng.index(rows.len() + 1));
        }
        rows
    };
    let (first, second) = (rows(&mut c.rng), rows(&mut c.rng));
    let room = if c.rng.once_in(2) { 104 } else { c.rng.index(120) };
    let wrong = !first.len().is_multiple_of(13) || !second.len().is_multiple_of(13) || room != 104;
    let mut out = vec![MARK; room];
    let profiles = [c.rng.pick(&[2009, 2021, 2010]), c.rng.pick(&[2009, 2021])];
    let number = product::join(profiles, &first, &second, &mut out);
    let number = if number == -255 { 255 } else { number.min(254) };
    let what = format!("join of {} and {} numbers with room for {room}", first.len(), second.len());
    decide(&what, number, wrong, &out, MARK)
}

fn others(c: &mut Comparison) -> Outcome {
    let length = c.rng.index(9);
    // The length comes before what the call itself would refuse.
    let code = c.rng.pick(&[1, 9]);
    let angles = [code, 1_440_000_000, 36_720_000_000, 0];
    let grid = [code, 1_440_000_000, 36_720_000_000, 0, 0, 1_440_000_000, 36_720_000_000];
    let what = |name: &str| format!("{name} with room for {length}");
    let mut floats = vec![FLOAT_MARK; length];
    let number = product::cartesian(&angles, &mut floats);
    decide(&what("cartesian"), number, length != 3, &floats, FLOAT_MARK)?;
    let mut floats = vec![FLOAT_MARK; length];
    let number = product::cassini(&grid, &mut floats);
    decide(&what("cassini"), number, length != 2, &floats, FLOAT_MARK)?;
    let mut whole = vec![MARK; length];
    let number = product::cartesian_units(&angles, &mut whole);
    decide(&what("cartesian units"), number, length != 3, &whole, MARK)?;
    let mut whole = vec![MARK; length];
    let number = product::geodetic(&[code, -113_105_165_410, 623_631_179_950, 71_174_811_140], &mut whole);
    decide(&what("from Cartesian"), number, length != 3, &whole, MARK)?;
    let mut whole = vec![MARK; length];
    let number = product::cassini_millimetres(&grid, &mut whole);
    decide(&what("cassini millimetres"), number, length != 2, &whole, MARK)?;
    let mut whole = vec![MARK; length];
    let number = product::round(1.5, c.rng.pick(&[0, 6]), &mut whole);
    decide(&what("round"), number, length != 1, &whole, MARK)?;
    let mut whole = vec![MARK; length];
    let line: &[u8] = c.rng.pick(&[b"P\tA\t1\t1\t6\t2000000\t0\t0\t0\n", b""]);
    let number = product::later(line, line, &mut whole);
    decide(&what("later"), number, length != 1, &whole, MARK)?;
    let mut whole = vec![MARK; length];
    let number = product::later_fault(line, line, &mut whole);
    decide(&what("fault of the later"), number, length != 3, &whole, MARK)?;
    let mut whole = vec![MARK; length];
    let number = product::grid_fault(line, &mut whole);
    decide(&what("fault of a grid"), number, length != 3, &whole, MARK)?;
    let length = c.rng.pick(&[15, 16, 16, 17, 3, 0]);
    let what = |name: &str| format!("{name} with room for {length}");
    let mut whole = vec![MARK; length];
    let asked = Asked { latitude: -1, longitude: 0, datum: 7, before: 0, after: 0 };
    let number = product::grid_velocity(line, &asked, &mut whole);
    decide(&what("velocity of a grid"), number, length != 16, &whole, MARK)
}

/// Parameters and room of any length; the length comes before what the call itself would refuse.
fn projections(c: &mut Comparison) -> Outcome {
    let mut length = |right: usize| if c.rng.once_in(2) { right } else { c.rng.index(right + 3) };
    let (given, room) = (length(8), length(2));
    let mut parameters = crate::gen::rso::TIMBALAI.to_vec();
    parameters.resize(given, 0);
    let wrong = given != 8 || room != 2;
    let what = |name: &str| format!("{name} with {given} parameters and room for {room}");
    let mut floats = vec![FLOAT_MARK; room];
    let angles = [c.rng.pick(&[1_440_000_000, -1]), 41_400_000_000];
    let number = product::rso_forward(&parameters, angles, &mut floats);
    decide(&what("RSO forward"), number, wrong, &floats, FLOAT_MARK)?;
    let mut whole = vec![MARK; room];
    let metres = [c.rng.pick(&[500_000.0, f64::NAN]), 500_000.0];
    let number = product::rso_reverse(&parameters, metres, &mut whole);
    decide(&what("RSO reverse"), number, wrong, &whole, MARK)
}

/// States, lines and rooms of any length; 255 comes before 29.
fn streams(c: &mut Comparison) -> Outcome {
    let mut length = |right: usize| if c.rng.once_in(3) { c.rng.index(right + 9) } else { right };
    let (numbers, line, room, told) = (length(111), length(200), length(200), length(2));
    let mut state = vec![0; numbers];
    if let (Some(year), true) = (state.get_mut(5), c.rng.once_in(2)) {
        *year = 2021;
    }
    let before = state.clone();
    let what = |name: &str| format!("{name} with {numbers} numbers, {line} and {room} bytes, {told} told");
    let (mut kept, mut out, mut told) = (vec![0; line], vec![0xa5; room], vec![MARK; told]);
    let wrong = numbers != 111 || line != 200 || room < 200;
    let number = product::feed(&mut state, &mut kept, b"P\tA", &mut out, &mut told);
    let number = if number == -255 { 255 } else { number.min(254) };
    decide(&what("feed"), number, wrong || told.len() != 2, &out, 0xa5)?;
    if number == 255 && (state != before || kept.iter().any(|b| *b != 0) || told.iter().any(|n| *n != MARK)) {
        return Err(Mismatch(what("wrote all the same: feed")));
    }
    let (mut state, mut kept) = (before.clone(), vec![0; line]);
    let number = product::finish(&mut state, &mut kept, &mut out);
    let number = if number == -255 { 255 } else { number.min(254) };
    decide(&what("finish"), number, wrong, &out, 0xa5)?;
    if number == 255 && state != before {
        return Err(Mismatch(what("wrote all the same: finish")));
    }
    Ok(())
}

/// One byte too few is -255; just enough, or more, is not.
fn texts(c: &mut Comparison) -> Outcome {
    let input = vec![b'\n'; c.rng.small(70_000) as usize];
    let room = product::room(&input);
    let length = match c.rng.below(4) {
        0 => room,
        1 => room - 1,
        2 => room + c.rng.index(20),
        _ => c.rng.index(room),
    };
    for (name, call) in [("sheet", product::sheet as fn(&[u8], &mut [u8]) -> i64), ("plan", product::plan)] {
        let mut out = vec![0xa5; length];
        let number = call(&input, &mut out);
        let number = if number == -255 { 255 } else { number.min(254) };
        let what = format!("{name} of {} bytes with room for {length}", input.len());
        decide(&what, number, length < room, &out, 0xa5)?;
    }
    Ok(())
}
