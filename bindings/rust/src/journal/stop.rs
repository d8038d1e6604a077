//! Where the reading of a journal stops, and why.

use std::error::Error;
use std::fmt;

use crate::ffi::{Found, WORD_CALL, WORD_NEXT};

/// Why the reading of a journal stops.
///
/// Later versions may know other reasons, so a `match` has a case for them.
///
/// ```
/// assert_eq!(oarhatchet::journal::Reason::Cut.to_string(), "record cut off");
/// ```
#[derive(Clone, Copy, PartialEq, Eq, Hash, Debug)]
#[non_exhaustive]
pub enum Reason {
    /// The journal is empty, or its first byte is not [`VERSION`](super::VERSION).
    Version,
    /// The journal ends within the record.
    Cut,
    /// The record is too short for its call.
    Short,
    /// No call has the call byte.
    UnknownCall,
    /// Bytes are left after the record's last argument.
    Leftover,
}

impl Reason {
    /// Every reason, by the archive's numbers, of which the first is 1.
    const ALL: [Reason; 5] =
        [Reason::Version, Reason::Cut, Reason::Short, Reason::UnknownCall, Reason::Leftover];
}

impl fmt::Display for Reason {
    fn fmt(&self, f: &mut fmt::Formatter<'_>) -> fmt::Result {
        f.write_str(match self {
            Reason::Version => "version missing or unknown",
            Reason::Cut => "record cut off",
            Reason::Short => "short record",
            Reason::UnknownCall => "unknown call byte",
            Reason::Leftover => "leftover bytes",
        })
    }
}

/// The reading of a journal stops before its end. The calls before the offset stand.
///
/// ```
/// use oarhatchet::journal::{replay, Reason, Stopped};
///
/// let stopped = Stopped { offset: 1, reason: Reason::UnknownCall };
/// assert_eq!(replay(&[1, 0, 1, 0x12]).next(), Some(Err(stopped)));
/// assert_eq!(stopped.to_string(), "stopped at 1: unknown call byte");
/// ```
#[derive(Clone, Copy, PartialEq, Eq, Hash, Debug)]
pub struct Stopped {
    /// Where the bad record starts, counted from the journal's first byte.
    pub offset: usize,
    /// Why it is bad.
    pub reason: Reason,
}

impl Stopped {
    /// The stop that the archive tells, if it does.
    pub(super) fn of(found: &Found) -> Option<Stopped> {
        let place = usize::try_from(found.record[WORD_CALL]).ok()?.checked_sub(1)?;
        let reason = *Reason::ALL.get(place)?;
        Some(Stopped { offset: found.record[WORD_NEXT] as usize, reason })
    }
}

impl fmt::Display for Stopped {
    fn fmt(&self, f: &mut fmt::Formatter<'_>) -> fmt::Result {
        write!(f, "stopped at {}: {}", self.offset, self.reason)
    }
}

impl Error for Stopped {}
