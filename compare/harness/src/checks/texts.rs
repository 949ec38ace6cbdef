//! Sheets and plans: by call, and some through the built programs.

use crate::compare::{shown, Comparison, Mismatch, Outcome};
use crate::gen::{plans, sheets};
use crate::subject::Subject;
use crate::tally::Function;

/// So many of each, and so many of them through the built programs as well.
pub fn run(c: &mut Comparison, count: u64, processes: u64) -> Outcome {
    let every = count.div_ceil(processes.max(1)).max(1);
    for place in 0..count {
        let through = processes > 0 && place % every == 0;
        one(c, Function::Sheet, through)?;
        one(c, Function::Plan, through)?;
    }
    Ok(())
}

fn one(c: &mut Comparison, function: Function, through: bool) -> Outcome {
    let is_sheet = function == Function::Sheet;
    let input = if is_sheet { sheets::sheet(&mut c.rng, &c.chains) } else { plans::plan(&mut c.rng) };
    let ask = |s: &dyn Subject| if is_sheet { s.sheet(&input) } else { s.plan(&input) };
    let expected = ask(&c.reference);
    c.tally.count_lines(function, &expected);
    let differs = |name: &str, given: &[u8]| {
        let what = if is_sheet { "sheet" } else { "plan" };
        let line = expected.split(|&b| b == b'\n').zip(given.split(|&b| b == b'\n'));
        let place = line.take_while(|(one, other)| one == other).count() + 1;
        Err(Mismatch(format!(
            "{what} {}\n  from line {place} of the output on\n  independent {}\n  {name} {}",
            shown(&input),
            shown(&expected),
            shown(given)
        )))
    };
    for suspect in &c.suspects {
        let given = ask(suspect.as_ref());
        if given != expected {
            return differs(suspect.name(), &given);
        }
    }
    for programs in c.programs.iter().filter(|_| through) {
        let program = if is_sheet { &programs.sheet } else { &programs.plan };
        let piece = c.rng.pick(&[usize::MAX, usize::MAX, 4096, 1000]);
        match programs.run(program, &input, piece) {
            Ok(given) if given == expected => {}
            Ok(given) => return differs(&programs.name, &given),
            Err(error) => return differs(&format!("{}: {error}", programs.name), b""),
        }
    }
    Ok(())
}
