//! Sheets in fragments: wherever they are cut, the same answers and the same closing state, and what one run says.

use crate::compare::{shown, Comparison, Mismatch, Outcome};
use crate::gen::{sheets, texts};
use crate::rng::Rng;
use crate::subject::{Fed, State, Subject};
use crate::tally::Function;
use paper::stream::{fresh, ROOM};

pub fn run(c: &mut Comparison, count: u64) -> Outcome {
    to_the_limit(c)?;
    for _ in 0..count {
        whole_sheet(c)?;
        for _ in 0..8 {
            any_state(c)?;
        }
    }
    Ok(())
}

fn begun() -> State {
    State { numbers: fresh(), line: [0; ROOM] }
}

/// Lengths of the fragments: all at once, line by line, up to just before each line feed, bytes, the modem's own, now and
/// then an empty one.
fn cuts(rng: &mut Rng, text: &[u8]) -> Vec<usize> {
    let lines = || text.split_inclusive(|&b| b == b'\n').map(<[u8]>::len);
    match rng.below(8) {
        0 => return lines().collect(),
        1 => return lines().flat_map(|length| [length - 1, 1]).collect(),
        _ => {}
    }
    let most = rng.pick(&[1, 3, 20, 70, 300, usize::MAX]);
    let mut cuts = Vec::new();
    let mut left = text.len();
    while left > 0 {
        let cut = if most == usize::MAX { left } else { rng.index(most + 1).min(left) };
        left -= cut;
        cuts.push(cut);
    }
    cuts
}

/// A sheet of bare line feeds past the millionth, and an open line at its end, by every program from a fresh state.
fn to_the_limit(c: &mut Comparison) -> Outcome {
    for s in c.all() {
        let mut state = begun();
        for line in 1..=1_000_003 {
            let text = if line > 1_000_000 { "R\t1000001\t28\t0\n".to_string() } else { format!("R\t{line}\t19\t0\n") };
            let call = s.fed(&mut state, Some(b"\n"));
            if call != Ok((1, Some(text.into_bytes()))) {
                return Err(Mismatch(format!("line {line} of bare line feeds: {} answers {call:?}", s.name())));
            }
        }
        let open = s.fed(&mut state, Some(b"X"));
        let last = s.fed(&mut state, None);
        let after = s.fed(&mut state, Some(b""));
        let wanted = (Ok((1, None)), Ok((0, Some(b"R\t1000001\t28\t0\n".to_vec()))), Err(29));
        if (&open, &last, &after) != (&wanted.0, &wanted.1, &wanted.2) || state.numbers[0] != 1_000_000 {
            return Err(Mismatch(format!("past the limit: {} answers {open:?}, {last:?}, {after:?}", s.name())));
        }
    }
    Ok(())
}

/// What every call answered, and the states after them; the last is the finish.
fn fed(s: &dyn Subject, text: &[u8], cuts: &[usize]) -> (Vec<Fed>, State) {
    let (mut state, mut calls) = (begun(), Vec::new());
    let mut rest = text;
    for &cut in cuts {
        let (mut piece, after) = rest.split_at(cut);
        rest = after;
        loop {
            let call = s.fed(&mut state, Some(piece));
            let taken = call.as_ref().map_or(piece.len(), |call| call.0.min(piece.len()));
            calls.push(call);
            piece = &piece[taken..];
            if piece.is_empty() {
                break;
            }
            if calls.len() > 10 * text.len() + 100 {
                return (calls, state);
            }
        }
    }
    calls.push(s.fed(&mut state, None));
    (calls, state)
}

fn printed(calls: &[Fed]) -> Vec<u8> {
    let texts = calls.iter().filter_map(|call| call.as_ref().ok()?.1.clone());
    texts.collect::<Vec<_>>().concat()
}

fn whole_sheet(c: &mut Comparison) -> Outcome {
    let mut text = sheets::sheet(&mut c.rng, &c.chains);
    if text.len() > 20_000 {
        text.truncate(20_000);
    }
    let (one, other) = (cuts(&mut c.rng, &text), cuts(&mut c.rng, &text));
    let expected = fed(&c.reference, &text, &one);
    c.tally.count_lines(Function::Stream, &printed(&expected.0));
    let input = || format!("sheet {} in {one:?}", shown(&text));
    c.hold("fragments", input, &expected, |s| fed(s, &text, &one))?;
    // One run of the same bytes, and another cutting.
    for s in c.all() {
        let (calls, closing) = fed(s, &text, &other);
        let (run, name) = (s.sheet(&text), s.name());
        if printed(&calls) != run || closing != expected.1 {
            return Err(Mismatch(format!(
                "fragments {} in {other:?}\n  {name} prints {}\n  in one run {}\n  closes {closing:?}\n  otherwise {:?}",
                shown(&text),
                shown(&printed(&calls)),
                shown(&run),
                expected.1
            )));
        }
    }
    Ok(())
}

/// One call on a state that may be at the limit, finished, out of range or one that no sheet makes.
fn any_state(c: &mut Comparison) -> Outcome {
    let state = state(c);
    let text = sheets::sheet(&mut c.rng, &c.chains);
    let start = text.iter().position(|&b| b == b'\n').map_or(0, |feed| feed + 1);
    let mut fragment = text[if c.rng.once_in(2) { start.min(text.len()) } else { 0 }..].to_vec();
    fragment.truncate(600);
    if c.rng.once_in(3) {
        fragment.truncate(c.rng.index(fragment.len() + 1));
    }
    if c.rng.once_in(4) {
        let first = c.rng.pick(b"SEPX");
        let long = c.rng.between(195, 210) as usize;
        fragment = [&[first], &b"A".repeat(long)[..], b"\n"].concat();
    }
    let finishes = c.rng.once_in(4);
    let fragment = (!finishes).then_some(fragment.as_slice());
    let call = |s: &dyn Subject| {
        let mut state = state.clone();
        (s.fed(&mut state, fragment), state)
    };
    let expected = call(&c.reference);
    c.tally.count(Function::Fed, &expected.0.as_ref().map(|_| ()).map_err(|number| *number));
    if let Ok((_, Some(text))) = &expected.0 {
        c.tally.count_lines(Function::Stream, text);
    }
    let input = || format!("{state:?} with {}", fragment.map_or("the finish".to_string(), shown));
    c.hold("state", input, &expected, call)
}

fn state(c: &mut Comparison) -> State {
    let length = c.rng.index(9);
    let mut chain = c.chains.good(&mut c.rng, length);
    if c.rng.once_in(8) {
        chain.damage(&mut c.rng);
    }
    let rng = &mut c.rng;
    let mut state = begun();
    state.numbers[0] = match rng.below(4) {
        0 => 0,
        1 => 1_000_000 - rng.between(0, 2),
        _ => rng.small(1_000_000),
    };
    state.numbers[5] = chain.profile;
    state.numbers[6] = chain.rows.len() as i64;
    // There are no more steps than lines answered.
    if !rng.once_in(8) {
        state.numbers[0] = state.numbers[0].max(state.numbers[6]);
    }
    for (place, number) in chain.numbers().into_iter().enumerate() {
        state.numbers[7 + place] = number;
    }
    if rng.once_in(2) {
        let kept = rng.pick(&[1, 5, 60, 150, 198, 199, 200]);
        state.numbers[1] = kept as i64;
        let first = rng.pick(b"SEPX");
        state.line[..kept].fill_with(|| if rng.once_in(60) { texts::byte(rng) } else { b'A' });
        state.line[0] = first;
        // No sheet leaves a line feed there: it is a byte of the line, and at the end it ends none.
        if rng.once_in(6) {
            state.line[kept - 1] = b'\n';
        }
    }
    for flag in 2..5 {
        state.numbers[flag] = i64::from(rng.once_in(if flag == 4 { 20 } else { 4 }));
    }
    if rng.once_in(8) {
        // Out of range, or stale bytes and numbers that are not examined.
        let number = rng.pick(&[-1, 2, 9, 201, 1_000_001, i64::MIN, i64::MAX]);
        match rng.below(3) {
            0 => state.numbers[rng.index(7)] = number,
            1 => state.numbers[7 + rng.index(104)] = number,
            _ => state.line[rng.index(ROOM)] = rng.word() as u8,
        }
    }
    state
}
