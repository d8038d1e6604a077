//! Compares the journals that random scripts are recorded as.

use std::io;

use super::program::Program;
use super::shrink::Shrinker;
use super::{lines, Comparison, Difference};
use crate::generate::Journals;
use crate::journal;

/// Compares scripts until `records` calls of them have been written, or up to the first difference.
pub fn compare_record(records: u64, program: &str, seed: u64) -> io::Result<Comparison> {
    let program = Program::of_any_status(program);
    let mut journals = Journals::new(seed);
    let mut result = Comparison::default();
    while result.calls < records && result.difference.is_none() {
        let script = journals.script();
        let (expected, _) = journal::journal_of(&script);
        // The first part is the version.
        result.calls += journal::parts(&expected).len() as u64 - 1;
        result.lists += 1;
        if program.output_of(&script)? != expected {
            result.difference = Some(shortest(&program, &script)?);
        }
    }
    Ok(result)
}

/// Cuts down a script of which the two write different journals.
fn shortest(program: &Program, script: &[u8]) -> io::Result<Difference> {
    let differs = |script: &[u8]| -> io::Result<bool> {
        Ok(program.output_of(script)? != journal::journal_of(script).0)
    };
    let shrinker = Shrinker::new(|lines| differs(&lines::join(lines)));
    let mut shorter = lines::join(&shrinker.shortest(lines::split(script), lines::simpler)?);
    // A script whose last line has no newline may differ only without it.
    if !differs(&shorter)? {
        shorter = script.to_vec();
    }
    Ok(Difference {
        reference: journal::journal_of(&shorter).0,
        program: program.output_of(&shorter)?,
        input: shorter,
    })
}
