//! The later of two, and which line and byte its refusal points at.

use crate::compare::{shown, Comparison, Outcome};
use crate::gen::pairs;
use crate::subject::Subject;
use crate::tally::Function;

pub fn run(c: &mut Comparison, count: u64) -> Outcome {
    for _ in 0..count {
        let [first, second] = pairs::pair(&mut c.rng);
        let expected = c.reference.later(&first, &second);
        c.tally.count(Function::Later, &expected);
        let input = || format!("{} {}", shown(&first), shown(&second));
        c.hold("later", input, &expected, |s| s.later(&first, &second))?;
        let fault = c.reference.later_fault(&first, &second);
        c.hold("fault of the later", input, &fault, |s| s.later_fault(&first, &second))?;
    }
    Ok(())
}
