//! Writes the journal of a script.

use std::fmt;
use std::io::{self, BufRead, Write};

use super::write::record_of;
use super::{Entry, VERSION};
use crate::answer::Errno;
use crate::script::{self, Item, Malformed};

/// Why a script is recorded no further.
#[derive(Clone, Copy, PartialEq, Eq, Debug)]
pub enum Why {
    Malformed(Malformed),
    Fresh,
    Refused(Errno),
}

/// The line at which the recording of a script ends early, counted from 1, and why.
#[derive(Clone, Copy, PartialEq, Eq, Debug)]
pub struct Halt {
    pub line: u64,
    pub why: Why,
}

impl fmt::Display for Halt {
    fn fmt(&self, f: &mut fmt::Formatter) -> fmt::Result {
        write!(f, "line {}: ", self.line)?;
        match self.why {
            Why::Malformed(malformed) => write!(f, "malformed, {}", malformed.name()),
            Why::Fresh => write!(f, "a journal starts fresh"),
            Why::Refused(errno) => write!(f, "refused {} {}", errno.number(), errno.name()),
        }
    }
}

/// Writes the version and the record of each call of a script, and passes over blank lines and
/// comments. A line that no record can stand for ends it; what was written stands.
pub fn record(mut input: impl BufRead, mut output: impl Write) -> io::Result<Option<Halt>> {
    output.write_all(&[VERSION])?;
    let mut line = Vec::new();
    let mut number = 0;
    let mut halt = None;
    while halt.is_none() && script::next_line(&mut input, &mut line)? {
        number += 1;
        let why = match script::parse(&line) {
            Item::Blank | Item::Comment => continue,
            Item::Fresh => Why::Fresh,
            Item::Malformed(malformed) => Why::Malformed(malformed),
            Item::Call(call) => match record_of(&Entry::of(call)) {
                Ok(bytes) => {
                    output.write_all(&bytes)?;
                    continue;
                }
                Err(errno) => Why::Refused(errno),
            },
        };
        halt = Some(Halt { line: number, why });
    }
    output.flush()?;
    Ok(halt)
}

/// The journal of a script that is in memory, and the line at which it ends early.
pub fn journal_of(script: &[u8]) -> (Vec<u8>, Option<Halt>) {
    let mut journal = Vec::new();
    let halt = record(script, &mut journal).expect("reading and writing memory does not fail");
    (journal, halt)
}
