//! The independent program beside the others: same input, same answer, or the input is printed.

use crate::gen::chains::Chains;
use crate::programs::Programs;
use crate::rng::Rng;
use crate::subject::{Paper, Subject};
use crate::tally::Tally;
use std::fmt::Debug;

/// What differed, with the input.
pub struct Mismatch(pub String);

pub type Outcome = Result<(), Mismatch>;

pub struct Comparison {
    pub rng: Rng,
    pub chains: Chains,
    pub tally: Tally,
    pub reference: Paper,
    pub suspects: Vec<Box<dyn Subject>>,
    pub programs: Vec<Programs>,
}

impl Comparison {
    pub fn new(seed: u64, suspects: Vec<Box<dyn Subject>>, programs: Vec<Programs>) -> Comparison {
        Comparison {
            rng: Rng::new(seed),
            chains: Chains::default(),
            tally: Tally::default(),
            reference: Paper,
            suspects,
            programs,
        }
    }

    /// Every suspect gives what the independent program gave.
    pub fn hold<T: PartialEq + Debug>(
        &self,
        what: &str,
        input: impl Fn() -> String,
        expected: &T,
        answer: impl Fn(&dyn Subject) -> T,
    ) -> Outcome {
        for suspect in &self.suspects {
            let given = answer(suspect.as_ref());
            if given != *expected {
                let name = suspect.name();
                return Err(Mismatch(format!(
                    "{what} {}\n  independent {expected:?}\n  {name} {given:?}",
                    input()
                )));
            }
        }
        Ok(())
    }

    /// The independent program and the suspects.
    pub fn all(&self) -> impl Iterator<Item = &dyn Subject> {
        let reference: &dyn Subject = &self.reference;
        std::iter::once(reference).chain(self.suspects.iter().map(AsRef::as_ref))
    }
}

/// Bytes as a line that can be read and typed again.
pub fn shown(bytes: &[u8]) -> String {
    format!("\"{}\"", bytes.escape_ascii())
}
