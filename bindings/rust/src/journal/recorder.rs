//! Makes calls, and writes the record of each first.

use std::error::Error;
use std::fmt;
use std::io::{self, Write};

use super::{byte, VERSION};
use crate::errno::{result_of, Errno};
use crate::ffi::{self, Arguments};
use crate::{Child, Kind, OwnIds, Tables, Way};

/// Tables whose calls are all recorded: the journal goes to a writer.
///
/// Each method is that of [`Tables`] with the same name. It writes the record of the call and then makes the call, also
/// where that is refused. A call is not made unless its record could be written, so the calls of the journal are those
/// that were made; a program that ends between the two has one call more in its journal.
///
/// Where a writer fails within a record, the journal ends with that record cut off, and the recorder makes no further
/// call. The calls before it stand. A writer that fails before it takes a byte of a record can be tried again.
///
/// Each record is written by itself, so a file has a [`BufWriter`](std::io::BufWriter) around it, and a
/// [`flush`](Recorder::flush) where the calls so far have to be in the file.
///
/// ```
/// use oarhatchet::journal::{replay, Answer, Call, Recorder, Stopped};
/// use oarhatchet::Errno;
///
/// let mut recorder = Recorder::new(Vec::new())?;
/// assert_eq!(recorder.fork(1)?, 2);
/// assert_eq!(recorder.fork(9).unwrap_err().refusal(), Some(Errno::Esrch));
///
/// let (_, journal) = recorder.into_parts();
/// let made = replay(&journal).collect::<Result<Vec<(Call, Answer)>, Stopped>>()?;
/// assert_eq!(
///     made,
///     [
///         (Call::Fork { caller: 1 }, Answer::Child(2)),
///         (Call::Fork { caller: 9 }, Answer::Refused(Errno::Esrch)),
///     ]
/// );
/// # Ok::<(), Box<dyn std::error::Error>>(())
/// ```
pub struct Recorder<W> {
    tables: Tables,
    writer: W,
    /// Whether a record was written in part.
    torn: bool,
    /// Room for any record.
    record: Vec<u8>,
}

impl<W: Write> Recorder<W> {
    /// Starts a journal: writes the version byte. The tables are the initial ones.
    ///
    /// ```
    /// use oarhatchet::journal::Recorder;
    ///
    /// let recorder = Recorder::new(Vec::new())?;
    /// assert_eq!(recorder.into_parts().1, [1]);
    /// # Ok::<(), std::io::Error>(())
    /// ```
    pub fn new(mut writer: W) -> io::Result<Recorder<W>> {
        writer.write_all(&[VERSION])?;
        Ok(Recorder::resume(Tables::new(), writer))
    }

    /// Goes on with a journal: the tables are those after its calls, and the writer appends to it. It writes nothing
    /// itself. A journal that stops is first cut at the stop's offset.
    ///
    /// ```
    /// use oarhatchet::journal::{replay, Recorder};
    ///
    /// let mut recorder = Recorder::new(Vec::new())?;
    /// recorder.fork(1)?;
    /// let (_, mut journal) = recorder.into_parts();
    ///
    /// let mut calls = replay(&journal);
    /// assert!(calls.all(|call| call.is_ok()));
    /// let tables = calls.into_tables();
    /// let mut recorder = Recorder::resume(tables, &mut journal);
    /// assert_eq!(recorder.fork(1)?, 3);
    /// assert_eq!(replay(&journal).count(), 2);
    /// # Ok::<(), Box<dyn std::error::Error>>(())
    /// ```
    pub fn resume(tables: Tables, writer: W) -> Recorder<W> {
        Recorder { tables, writer, torn: false, record: vec![0; ffi::MAX_RECORD] }
    }

    /// Flushes the writer.
    pub fn flush(&mut self) -> io::Result<()> {
        self.writer.flush()
    }

    /// As [`Tables::fork`].
    pub fn fork(&mut self, caller: u64) -> Result<u64, RecordError> {
        let record = plain(byte::FORK, [caller, 0, 0]);
        self.make(record, |tables| tables.fork(caller))
    }

    /// As [`Tables::clone_process`].
    pub fn clone_process(&mut self, caller: u64) -> Result<Child, RecordError> {
        let record = plain(byte::CLONE, [caller, 0, 0]);
        self.make(record, |tables| tables.clone_process(caller))
    }

    /// As [`Tables::unshare`].
    pub fn unshare(&mut self, caller: u64) -> Result<u64, RecordError> {
        let record = plain(byte::UNSHARE, [caller, 0, 0]);
        self.make(record, |tables| tables.unshare(caller))
    }

    /// As [`Tables::setns`].
    pub fn setns(&mut self, caller: u64, namespace: u64) -> Result<(), RecordError> {
        let record = plain(byte::SETNS, [caller, namespace, 0]);
        self.make(record, |tables| tables.setns(caller, namespace))
    }

    /// As [`Tables::write_map`]. A text of over 65,518 bytes cannot be recorded.
    pub fn write_map(
        &mut self,
        kind: Kind,
        caller: u64,
        process: u64,
        text: &[u8],
    ) -> Result<(), RecordError> {
        let record = Arguments { text, ..plain(byte::write_map(kind), [caller, process, 0]) };
        self.make(record, |tables| tables.write_map(kind, caller, process, text))
    }

    /// As [`Tables::write_setgroups`]. A text of over 65,518 bytes cannot be recorded.
    pub fn write_setgroups(
        &mut self,
        caller: u64,
        process: u64,
        text: &[u8],
    ) -> Result<(), RecordError> {
        let record = Arguments { text, ..plain(byte::WRITE_SETGROUPS, [caller, process, 0]) };
        self.make(record, |tables| tables.write_setgroups(caller, process, text))
    }

    /// As [`Tables::read_map`]. The journal has the length of the buffer, and not what is in it.
    pub fn read_map(
        &mut self,
        kind: Kind,
        caller: u64,
        process: u64,
        buffer: &mut [u8],
    ) -> Result<usize, RecordError> {
        let length = buffer.len() as u64;
        let record = Arguments { length, ..plain(byte::read_map(kind), [caller, process, 0]) };
        self.make(record, |tables| tables.read_map(kind, caller, process, buffer))
    }

    /// As [`Tables::read_setgroups`]. The journal has the length of the buffer, and not what is in it.
    pub fn read_setgroups(
        &mut self,
        caller: u64,
        process: u64,
        buffer: &mut [u8],
    ) -> Result<usize, RecordError> {
        let length = buffer.len() as u64;
        let record = Arguments { length, ..plain(byte::READ_SETGROUPS, [caller, process, 0]) };
        self.make(record, |tables| tables.read_setgroups(caller, process, buffer))
    }

    /// As [`Tables::set_ids`].
    pub fn set_ids(&mut self, kind: Kind, caller: u64, ids: [u32; 3]) -> Result<(), RecordError> {
        let record = Arguments { numbers: ids, ..plain(byte::set_ids(kind), [caller, 0, 0]) };
        self.make(record, |tables| tables.set_ids(kind, caller, ids))
    }

    /// As [`Tables::setgroups`]. A list of over 16,381 IDs cannot be recorded.
    pub fn setgroups(&mut self, caller: u64, groups: &[u32]) -> Result<(), RecordError> {
        let record = Arguments { list: groups, ..plain(byte::SETGROUPS, [caller, 0, 0]) };
        self.make(record, |tables| tables.setgroups(caller, groups))
    }

    /// As [`Tables::capable`].
    pub fn capable(
        &mut self,
        caller: u64,
        namespace: u64,
        number: u32,
    ) -> Result<bool, RecordError> {
        let numbers = [number, 0, 0];
        let record = Arguments { numbers, ..plain(byte::CAPABLE, [caller, namespace, 0]) };
        self.make(record, |tables| tables.capable(caller, namespace, number))
    }

    /// As [`Tables::capset`].
    pub fn capset(
        &mut self,
        caller: u64,
        permitted: u64,
        effective: u64,
    ) -> Result<(), RecordError> {
        let record = plain(byte::CAPSET, [caller, permitted, effective]);
        self.make(record, |tables| tables.capset(caller, permitted, effective))
    }

    /// As [`Tables::getids`].
    pub fn getids(&mut self, caller: u64) -> Result<OwnIds, RecordError> {
        let record = plain(byte::GETIDS, [caller, 0, 0]);
        self.make(record, |tables| tables.getids(caller))
    }

    /// As [`Tables::translate`].
    pub fn translate(
        &mut self,
        kind: Kind,
        way: Way,
        caller: u64,
        namespace: u64,
        id: u32,
    ) -> Result<Option<u32>, RecordError> {
        let call = byte::translate(kind, way);
        let record = Arguments { numbers: [id, 0, 0], ..plain(call, [caller, namespace, 0]) };
        self.make(record, |tables| tables.translate(kind, way, caller, namespace, id))
    }

    /// Writes the record of a call, and then makes the call.
    fn make<T>(
        &mut self,
        record: Arguments<'_>,
        call: impl FnOnce(&mut Tables) -> Result<T, Errno>,
    ) -> Result<T, RecordError> {
        self.append(&record).map_err(RecordError::Unrecorded)?;
        call(&mut self.tables).map_err(RecordError::Refused)
    }

    /// Writes a record.
    fn append(&mut self, record: &Arguments<'_>) -> io::Result<()> {
        if self.torn {
            return Err(io::Error::other("the journal ends within a record"));
        }
        let Ok(length) = result_of(ffi::write_record(record, &mut self.record)) else {
            let why = "the call has a text, a list or a buffer that is too long for a record";
            return Err(io::Error::new(io::ErrorKind::InvalidInput, why));
        };
        let mut rest = &self.record[..length as usize];
        while !rest.is_empty() {
            let written = match self.writer.write(rest) {
                Ok(0) => Err(io::ErrorKind::WriteZero.into()),
                Err(error) if error.kind() == io::ErrorKind::Interrupted => Ok(0),
                other => other,
            };
            match written {
                Ok(count) => rest = &rest[count..],
                Err(error) => {
                    self.torn = rest.len() < length as usize;
                    return Err(error);
                }
            }
        }
        Ok(())
    }
}

impl<W> Recorder<W> {
    /// The tables. What is asked of them here is not recorded.
    ///
    /// ```
    /// use oarhatchet::journal::Recorder;
    /// use oarhatchet::Kind;
    ///
    /// let recorder = Recorder::new(Vec::new())?;
    /// assert_eq!(recorder.tables().setgroups_text(1, 1)?, "allow\n");
    /// # Ok::<(), std::io::Error>(())
    /// ```
    pub fn tables(&self) -> &Tables {
        &self.tables
    }

    /// The tables and the writer, which is not flushed.
    pub fn into_parts(self) -> (Tables, W) {
        (self.tables, self.writer)
    }
}

impl<W> fmt::Debug for Recorder<W> {
    fn fmt(&self, f: &mut fmt::Formatter<'_>) -> fmt::Result {
        f.debug_struct("Recorder").field("torn", &self.torn).finish_non_exhaustive()
    }
}

/// The record of a call that has names alone, three at most, the caller first.
fn plain(call: u8, names: [u64; 3]) -> Arguments<'static> {
    Arguments { call, names, numbers: [0; 3], text: &[], list: &[], length: 0 }
}

/// Why a call of a [`Recorder`] has no answer.
///
/// ```
/// use std::io;
///
/// use oarhatchet::journal::{RecordError, Recorder};
/// use oarhatchet::{Errno, Kind};
///
/// let mut recorder = Recorder::new(Vec::new())?;
/// let refused = recorder.setns(1, 0).unwrap_err();
/// assert_eq!(refused.refusal(), Some(Errno::Einval));
///
/// let long = recorder.write_map(Kind::User, 1, 1, &[b' '; 65519]).unwrap_err();
/// assert!(matches!(&long, RecordError::Unrecorded(e) if e.kind() == io::ErrorKind::InvalidInput));
/// assert_eq!(long.refusal(), None);
/// // The journal has its version and the record of the first call.
/// assert_eq!(recorder.into_parts().1.len(), 1 + 19);
/// # Ok::<(), io::Error>(())
/// ```
#[derive(Debug)]
#[non_exhaustive]
pub enum RecordError {
    /// The call was recorded and made, and it is refused.
    Refused(Errno),
    /// The record could not be written, and the call was not made. Where the call has a text, a list or a buffer that
    /// is too long for a record, the kind of the error is [`io::ErrorKind::InvalidInput`].
    Unrecorded(io::Error),
}

impl RecordError {
    /// Why the call is refused, if it was made.
    pub fn refusal(&self) -> Option<Errno> {
        match self {
            RecordError::Refused(errno) => Some(*errno),
            RecordError::Unrecorded(_) => None,
        }
    }
}

impl fmt::Display for RecordError {
    fn fmt(&self, f: &mut fmt::Formatter<'_>) -> fmt::Result {
        match self {
            RecordError::Refused(errno) => errno.fmt(f),
            RecordError::Unrecorded(_) => f.write_str("not recorded, and so not made"),
        }
    }
}

impl Error for RecordError {
    fn source(&self) -> Option<&(dyn Error + 'static)> {
        match self {
            RecordError::Refused(_) => None,
            RecordError::Unrecorded(error) => Some(error),
        }
    }
}

/// The error that it holds, so that `?` works in a function that answers an [`io::Result`].
impl From<RecordError> for io::Error {
    fn from(error: RecordError) -> io::Error {
        match error {
            RecordError::Refused(errno) => errno.into(),
            RecordError::Unrecorded(error) => error,
        }
    }
}
