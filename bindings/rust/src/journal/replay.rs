//! Makes the calls of a journal again.

use std::fmt;
use std::iter::FusedIterator;

use super::{Answer, Call, Stopped};
use crate::ffi::{self, Found, WORD_CALL, WORD_NEXT};
use crate::Tables;

/// Makes the calls of a journal on the initial tables, one each time that the iterator is asked.
///
/// It gives each call with its answer. It ends at the journal's end, or after the stop at the first record that is bad.
///
/// ```
/// use oarhatchet::journal::{replay, Answer, Call, Reason, Recorder, Stopped};
///
/// let mut recorder = Recorder::new(Vec::new())?;
/// recorder.fork(1)?;
/// recorder.fork(2)?;
/// let (_, mut journal) = recorder.into_parts();
/// journal.pop();
///
/// let mut calls = replay(&journal);
/// assert_eq!(calls.next(), Some(Ok((Call::Fork { caller: 1 }, Answer::Child(2)))));
/// assert_eq!(calls.next(), Some(Err(Stopped { offset: 12, reason: Reason::Cut })));
/// assert_eq!(calls.next(), None);
/// // The call before the stop stands.
/// assert_eq!(calls.into_tables().fork(1), Ok(3));
/// # Ok::<(), Box<dyn std::error::Error>>(())
/// ```
pub fn replay(journal: &[u8]) -> Replay<'_> {
    let list = vec![0; ffi::MAX_IDS].into_boxed_slice();
    Replay {
        journal,
        offset: 0,
        over: false,
        tables: Tables::new(),
        found: Found {
            record: [0; ffi::RECORD_WORDS],
            list: list.try_into().expect("the list has the length of the longest"),
            buffer: [0; ffi::MAX_READ],
            ids: [0; ffi::IDS],
        },
    }
}

/// The calls of a journal, made one after the other: see [`replay`].
pub struct Replay<'a> {
    journal: &'a [u8],
    /// Where the next record starts; 0 before the version byte.
    offset: usize,
    /// Whether the journal's end or a stop has been reached.
    over: bool,
    tables: Tables,
    /// What was read last.
    found: Found,
}

impl Replay<'_> {
    /// The tables after the calls that have been made so far.
    ///
    /// ```
    /// use oarhatchet::journal::{replay, Recorder};
    ///
    /// let mut recorder = Recorder::new(Vec::new())?;
    /// recorder.setgroups(1, &[5])?;
    /// recorder.setgroups(1, &[6])?;
    /// let (_, journal) = recorder.into_parts();
    ///
    /// let mut calls = replay(&journal);
    /// calls.next();
    /// assert_eq!(calls.tables().getids(1)?.supplementary, [5]);
    /// calls.next();
    /// assert_eq!(calls.tables().getids(1)?.supplementary, [6]);
    /// # Ok::<(), Box<dyn std::error::Error>>(())
    /// ```
    pub fn tables(&self) -> &Tables {
        &self.tables
    }

    /// The tables after the calls that have been made so far: where the iterator has ended, after all.
    ///
    /// ```
    /// use oarhatchet::journal::{replay, Recorder, Stopped};
    ///
    /// let mut recorder = Recorder::new(Vec::new())?;
    /// let child = recorder.fork(1)?;
    /// let (_, journal) = recorder.into_parts();
    ///
    /// let mut calls = replay(&journal);
    /// calls.by_ref().try_for_each(|call| call.map(|_| ()))?;
    /// assert_eq!(calls.into_tables().fork(child), Ok(3));
    /// # Ok::<(), Box<dyn std::error::Error>>(())
    /// ```
    pub fn into_tables(self) -> Tables {
        self.tables
    }
}

impl Iterator for Replay<'_> {
    type Item = Result<(Call, Answer), Stopped>;

    fn next(&mut self) -> Option<Self::Item> {
        if self.over {
            return None;
        }
        let code = ffi::replay(self.tables.words(), self.journal, self.offset, &mut self.found);
        let stopped = Stopped::of(&self.found);
        self.over = stopped.is_some() || self.found.record[WORD_CALL] == 0;
        if self.over {
            return stopped.map(Err);
        }
        self.offset = self.found.record[WORD_NEXT] as usize;
        let call = Call::of(&self.found, self.journal);
        let answer = Answer::of(&call, code, &self.found);
        Some(Ok((call, answer)))
    }
}

impl FusedIterator for Replay<'_> {}

impl fmt::Debug for Replay<'_> {
    fn fmt(&self, f: &mut fmt::Formatter<'_>) -> fmt::Result {
        f.debug_struct("Replay").field("offset", &self.offset).finish_non_exhaustive()
    }
}
