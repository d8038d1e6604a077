//! The journal of calls: a version byte and one record for each call, as docs/journal.md has it.

mod read;
mod record;
mod replay;
mod write;

use crate::call::Call;
use crate::id_map::MAX_LINES;
use crate::script::FILLER;

pub use read::{parts, read, Next, Reader, Reason, Stop};
pub use record::{journal_of, record, Halt, Why};
pub use replay::{output_of, replay};
pub(crate) use write::framed;
pub use write::{journal, write, MAX_IDS, MAX_LENGTH, MAX_TEXT};

/// The first byte of a journal.
pub const VERSION: u8 = 1;

/// The bytes of a line that a map read gives.
const MAP_LINE: usize = 33;
/// The most bytes that a read gives: those of a map with all its lines.
const LONGEST_READ: usize = MAX_LINES * MAP_LINE;

/// A call as a journal holds it: of a read's buffer only the length.
#[derive(Clone, PartialEq, Eq, Debug)]
pub struct Entry {
    /// The call, a read with an empty buffer.
    call: Call,
    /// The length of a read's buffer, 0 for other calls.
    lent: u64,
}

impl Entry {
    pub fn of(mut call: Call) -> Entry {
        let lent = buffer_of(&mut call).map_or(0, |buffer| std::mem::take(buffer).len() as u64);
        Entry { call, lent }
    }

    /// The same call with a buffer of another length, if it is a read.
    pub fn lending(mut self, length: u64) -> Entry {
        if self.is_read() {
            self.lent = length;
        }
        self
    }

    pub fn is_read(&self) -> bool {
        matches!(self.call, Call::ReadMap { .. } | Call::ReadSetgroups { .. })
    }

    /// The call to make. A longer buffer than the longest text that a read gives is cut to that
    /// length: every text still fits, so the answer and the bytes that are read are the same.
    pub fn to_call(&self) -> Call {
        let mut call = self.call.clone();
        if let Some(buffer) = buffer_of(&mut call) {
            *buffer = vec![FILLER; self.lent.min(LONGEST_READ as u64) as usize];
        }
        call
    }
}

fn buffer_of(call: &mut Call) -> Option<&mut Vec<u8>> {
    match call {
        Call::ReadMap { buffer, .. } | Call::ReadSetgroups { buffer, .. } => Some(buffer),
        _ => None,
    }
}
