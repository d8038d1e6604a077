//! Makes the calls of a journal from the initial tables on, and prints each answer.

use std::io::{self, Read, Write};

use super::{Next, Reader};
use crate::answer::Answer;
use crate::show;
use crate::tables::Tables;

/// Prints a line for each call and one for a stop, and answers how many calls it made.
pub fn replay(input: impl Read, mut output: impl Write) -> io::Result<u64> {
    let mut reader = Reader::new(input);
    let mut tables = Tables::initial();
    let mut calls = 0;
    loop {
        match reader.next()? {
            Next::Entry(entry) => {
                let answer = bytes_read(tables.answer(&entry.to_call()));
                output.write_all(&show::answer(&answer))?;
                output.write_all(b"\n")?;
                calls += 1;
            }
            Next::End => break,
            Next::Stop(stop) => {
                writeln!(output, "{stop}")?;
                break;
            }
        }
    }
    output.flush()?;
    Ok(calls)
}

/// The output of the replay of a journal that is in memory, and how many calls it made.
pub fn output_of(journal: &[u8]) -> (Vec<u8>, u64) {
    let mut output = Vec::new();
    let calls = replay(journal, &mut output).expect("reading and writing memory does not fail");
    (output, calls)
}

/// The answer with only the bytes that were read, in place of the whole buffer after the call.
fn bytes_read(answer: Answer) -> Answer {
    match answer {
        Answer::Length { length, mut buffer } => {
            buffer.truncate(length);
            Answer::Length { length, buffer }
        }
        Answer::ReadRefused { rule, .. } => Answer::Refused(rule),
        other => other,
    }
}
