//! Compares the replay of random journals, good ones and damaged ones.

use std::io;

use super::program::Program;
use super::records;
use super::shrink::Shrinker;
use super::{Comparison, Difference};
use crate::generate::Journals;
use crate::journal;

/// Compares journals until `records` calls of them have been made, or up to the first difference.
pub fn compare_replay(records: u64, program: &str, seed: u64) -> io::Result<Comparison> {
    let program = Program::exact(program);
    let mut journals = Journals::new(seed);
    let mut result = Comparison::default();
    while result.calls < records && result.difference.is_none() {
        let journal = journals.journal();
        let (expected, calls) = journal::output_of(&journal);
        result.calls += calls;
        result.lists += 1;
        if program.output_of(&journal)? != expected {
            result.difference = Some(shortest(&program, &journal)?);
        }
    }
    Ok(result)
}

/// Cuts down a journal on which the two differ.
fn shortest(program: &Program, journal: &[u8]) -> io::Result<Difference> {
    let shrinker = Shrinker::new(|parts| {
        let journal = parts.concat();
        Ok(program.output_of(&journal)? != journal::output_of(&journal).0)
    });
    let parts = journal::parts(journal).into_iter().map(<[u8]>::to_vec).collect();
    let journal = shrinker.shortest(parts, records::simpler)?.concat();
    Ok(Difference {
        reference: journal::output_of(&journal).0,
        program: program.output_of(&journal)?,
        input: journal,
    })
}
