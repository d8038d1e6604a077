//! The tables as a value that owns its array, with a method for each call.

use std::fmt;

use crate::errno::{result_of, Errno};
use crate::ffi::{self, Words};
use crate::{Child, Groups, Kind, OwnIds, Way};

/// The most lines of a map, and the bytes of each in the text of a read.
const MAX_LINES: usize = 5;
const LINE_LENGTH: usize = 33;
/// The length of the first buffer that the reads of whole texts lend.
const FIRST_BUFFER: usize = MAX_LINES * LINE_LENGTH;

/// The tables of namespaces and processes. Only the calls change them.
///
/// In each call `caller` names the process that makes it. Every call first finds the caller, then the process or
/// namespace named, and refuses with [`Errno::Esrch`] where there is none; the other refusals stand at each call, in
/// the order in which they are tested. A refused call changes nothing.
///
/// The array is in one box, so a value is cheap to move. It may be sent to other threads, and questions and reads may
/// be asked from several at once.
pub struct Tables {
    words: Box<Words>,
}

/// The words in a box. They never stand on the stack.
fn boxed(words: Vec<u64>) -> Box<Words> {
    words.into_boxed_slice().try_into().expect("the list has the length of the tables")
}

impl Tables {
    /// The initial tables: process 1 in namespace 0, all its IDs 0, no supplementary groups, both capability sets full.
    ///
    /// ```
    /// let tables = oarhatchet::Tables::new();
    /// assert_eq!(tables.getids(1)?.users, [0, 0, 0]);
    /// # Ok::<(), oarhatchet::Errno>(())
    /// ```
    pub fn new() -> Tables {
        assert_eq!(
            ffi::oarhatchet_words(),
            ffi::WORDS as u64,
            "the archive's tables are of another size"
        );
        let mut words = boxed(vec![0; ffi::WORDS]);
        ffi::oarhatchet_initial(&mut words);
        Tables { words }
    }

    /// Makes a copy of the caller, and answers the child's number.
    ///
    /// Refuses with [`Errno::Eagain`] where 128 processes exist.
    ///
    /// ```
    /// let mut tables = oarhatchet::Tables::new();
    /// assert_eq!(tables.fork(1), Ok(2));
    /// assert_eq!(tables.fork(2), Ok(3));
    /// ```
    pub fn fork(&mut self, caller: u64) -> Result<u64, Errno> {
        result_of(ffi::oarhatchet_fork(&mut self.words, caller))
    }

    /// Makes a namespace below the caller's and a copy of the caller in it, with both capability sets full. This is
    /// the call clone with a new user namespace.
    ///
    /// Refuses with [`Errno::Eusers`] where the caller's namespace has level 32; [`Errno::Eperm`] where the caller's
    /// effective user or group ID is not mapped in its namespace; [`Errno::Enospc`] where 64 namespaces exist;
    /// [`Errno::Eagain`] where 128 processes exist.
    ///
    /// ```
    /// use oarhatchet::{Child, Errno, Tables};
    ///
    /// let mut tables = Tables::new();
    /// assert_eq!(tables.clone_process(1), Ok(Child { process: 2, namespace: 1 }));
    /// // No ID is mapped in the new namespace yet.
    /// assert_eq!(tables.clone_process(2), Err(Errno::Eperm));
    /// ```
    pub fn clone_process(&mut self, caller: u64) -> Result<Child, Errno> {
        let mut namespace = 0;
        let code = ffi::oarhatchet_clone(&mut self.words, caller, &mut namespace);
        result_of(code).map(|process| Child { process, namespace })
    }

    /// Makes a namespace below the caller's, moves the caller into it with both capability sets full, and answers the
    /// namespace's number.
    ///
    /// Refuses as [`Tables::clone_process`] does, but for the number of processes.
    ///
    /// ```
    /// let mut tables = oarhatchet::Tables::new();
    /// let child = tables.fork(1)?;
    /// assert_eq!(tables.unshare(child), Ok(1));
    /// # Ok::<(), oarhatchet::Errno>(())
    /// ```
    pub fn unshare(&mut self, caller: u64) -> Result<u64, Errno> {
        result_of(ffi::oarhatchet_unshare(&mut self.words, caller))
    }

    /// Moves the caller into a namespace that exists, with both capability sets full.
    ///
    /// Refuses with [`Errno::Einval`] where the caller is in it already; [`Errno::Eperm`] where the caller does not
    /// hold [`CAP_SYS_ADMIN`](crate::CAP_SYS_ADMIN) in it.
    ///
    /// ```
    /// use oarhatchet::{Errno, Tables};
    ///
    /// let mut tables = Tables::new();
    /// let child = tables.clone_process(1)?;
    /// tables.setns(1, child.namespace)?;
    /// assert_eq!(tables.setns(1, 0), Err(Errno::Eperm));
    /// # Ok::<(), Errno>(())
    /// ```
    pub fn setns(&mut self, caller: u64, namespace: u64) -> Result<(), Errno> {
        done(ffi::oarhatchet_setns(&mut self.words, caller, namespace))
    }

    /// Writes the user or group map of the namespace that the process is in, which is done once. The text is one to
    /// five lines of inside start, parent start and count.
    ///
    /// Refuses with [`Errno::Eperm`] where that namespace is namespace 0, or the caller is neither in it nor in its
    /// parent; [`Errno::Einval`] where the text has 0 or more than 4095 bytes; [`Errno::Eperm`] where the map is
    /// written already, or the caller does not hold [`CAP_SETUID`](crate::CAP_SETUID), for a group map
    /// [`CAP_SETGID`](crate::CAP_SETGID), in the namespace; [`Errno::Einval`] where the text is bad; [`Errno::Eperm`]
    /// where the caller does not hold that capability in the parent and the text does more than map its own ID, or the
    /// parent side of a line does not lie whole in one line of the parent's map.
    ///
    /// ```
    /// use oarhatchet::{Errno, Kind, Tables};
    ///
    /// let mut tables = Tables::new();
    /// let child = tables.clone_process(1)?;
    /// let overlap = tables.write_map(Kind::User, 1, child.process, b"0 100000 10\n5 200000 10\n");
    /// assert_eq!(overlap, Err(Errno::Einval));
    /// tables.write_map(Kind::User, 1, child.process, b"0 100000 10\n10 200000 10\n")?;
    /// # Ok::<(), Errno>(())
    /// ```
    pub fn write_map(
        &mut self,
        kind: Kind,
        caller: u64,
        process: u64,
        text: &[u8],
    ) -> Result<(), Errno> {
        let call = match kind {
            Kind::User => ffi::write_uid_map,
            Kind::Group => ffi::write_gid_map,
        };
        done(call(&mut self.words, caller, process, text))
    }

    /// Writes the setgroups setting of the namespace that the process is in: `allow` or `deny`, with or without a
    /// newline.
    ///
    /// Refuses with [`Errno::Eperm`] where the caller does not hold [`CAP_SYS_ADMIN`](crate::CAP_SYS_ADMIN) in the
    /// namespace; [`Errno::Einval`] where the text is another; [`Errno::Eperm`] for `deny` after the group map is
    /// written and for `allow` after `deny`.
    ///
    /// ```
    /// use oarhatchet::{Errno, Tables};
    ///
    /// let mut tables = Tables::new();
    /// let child = tables.clone_process(1)?;
    /// tables.write_setgroups(1, child.process, b"deny")?;
    /// assert_eq!(tables.write_setgroups(1, child.process, b"allow"), Err(Errno::Eperm));
    /// # Ok::<(), Errno>(())
    /// ```
    pub fn write_setgroups(&mut self, caller: u64, process: u64, text: &[u8]) -> Result<(), Errno> {
        done(ffi::write_setgroups(&mut self.words, caller, process, text))
    }

    /// Reads the user or group map of the namespace that the process is in to the front of the buffer, and answers
    /// the text's length: 33 bytes for each line, and 0 for a map that is not written. Parent starts are shown as the
    /// caller sees them. The bytes after the text stay as they are.
    ///
    /// Refuses with [`Errno::Erange`] where the buffer is shorter than the text.
    ///
    /// ```
    /// use oarhatchet::{Errno, Kind, Tables};
    ///
    /// let tables = Tables::new();
    /// let mut buffer = [b'.'; 35];
    /// assert_eq!(tables.read_map(Kind::User, 1, 1, &mut buffer[..32]), Err(Errno::Erange));
    /// assert_eq!(tables.read_map(Kind::User, 1, 1, &mut buffer), Ok(33));
    /// assert_eq!(&buffer, b"         0          0 4294967295\n..");
    /// ```
    pub fn read_map(
        &self,
        kind: Kind,
        caller: u64,
        process: u64,
        buffer: &mut [u8],
    ) -> Result<usize, Errno> {
        let call = match kind {
            Kind::User => ffi::read_uid_map,
            Kind::Group => ffi::read_gid_map,
        };
        length(call(&self.words, caller, process, buffer))
    }

    /// Reads the setgroups setting of the namespace that the process is in, with a newline, to the front of the
    /// buffer, and answers the text's length. The bytes after the text stay as they are.
    ///
    /// Refuses with [`Errno::Erange`] where the buffer is shorter than the text.
    ///
    /// ```
    /// let tables = oarhatchet::Tables::new();
    /// let mut buffer = [b'.'; 8];
    /// assert_eq!(tables.read_setgroups(1, 1, &mut buffer), Ok(6));
    /// assert_eq!(&buffer, b"allow\n..");
    /// ```
    pub fn read_setgroups(
        &self,
        caller: u64,
        process: u64,
        buffer: &mut [u8],
    ) -> Result<usize, Errno> {
        length(ffi::read_setgroups(&self.words, caller, process, buffer))
    }

    /// The whole text that [`Tables::read_map`] reads, whatever its length.
    ///
    /// ```
    /// use oarhatchet::{Kind, Tables};
    ///
    /// let mut tables = Tables::new();
    /// let child = tables.clone_process(1)?;
    /// assert_eq!(tables.map_text(Kind::User, 1, child.process)?, "");
    /// tables.write_map(Kind::User, 1, child.process, b"0 1000 1")?;
    /// assert_eq!(
    ///     tables.map_text(Kind::User, 1, child.process)?,
    ///     "         0       1000          1\n"
    /// );
    /// # Ok::<(), oarhatchet::Errno>(())
    /// ```
    pub fn map_text(&self, kind: Kind, caller: u64, process: u64) -> Result<String, Errno> {
        whole_text(|buffer| self.read_map(kind, caller, process, buffer))
    }

    /// The whole text that [`Tables::read_setgroups`] reads.
    ///
    /// ```
    /// assert_eq!(oarhatchet::Tables::new().setgroups_text(1, 1)?, "allow\n");
    /// # Ok::<(), oarhatchet::Errno>(())
    /// ```
    pub fn setgroups_text(&self, caller: u64, process: u64) -> Result<String, Errno> {
        whole_text(|buffer| self.read_setgroups(caller, process, buffer))
    }

    /// Sets the caller's real, effective and saved user or group IDs, as IDs of its namespace.
    /// [`NO_ID`](crate::NO_ID) leaves one as it is. This is setresuid or setresgid. A caller whose user IDs leave ID
    /// 0 loses capabilities.
    ///
    /// Refuses with [`Errno::Einval`] where an ID is not mapped; [`Errno::Eperm`] where the caller does not hold
    /// [`CAP_SETUID`](crate::CAP_SETUID), for group IDs [`CAP_SETGID`](crate::CAP_SETGID), in its namespace, and one
    /// of the new three is none of its present three.
    ///
    /// ```
    /// use oarhatchet::{Errno, Kind, Tables, NO_ID};
    ///
    /// let mut tables = Tables::new();
    /// tables.set_ids(Kind::User, 1, [NO_ID, 5, NO_ID])?;
    /// assert_eq!(tables.getids(1)?.users, [0, 5, 0]);
    /// assert_eq!(tables.set_ids(Kind::User, 1, [6, 6, 6]), Err(Errno::Eperm));
    /// # Ok::<(), Errno>(())
    /// ```
    pub fn set_ids(&mut self, kind: Kind, caller: u64, ids: [u32; 3]) -> Result<(), Errno> {
        let call = match kind {
            Kind::User => ffi::oarhatchet_setresuid,
            Kind::Group => ffi::oarhatchet_setresgid,
        };
        let [real, effective, saved] = ids;
        done(call(&mut self.words, caller, real, effective, saved))
    }

    /// Replaces the caller's supplementary groups by the list, in its order.
    ///
    /// Refuses with [`Errno::Eperm`] where the caller does not hold [`CAP_SETGID`](crate::CAP_SETGID) in its
    /// namespace, the group map there is not written, or the setting there is `deny`; [`Errno::Einval`] where the
    /// list has over 16 IDs or one is not mapped.
    ///
    /// ```
    /// use oarhatchet::{Errno, Tables};
    ///
    /// let mut tables = Tables::new();
    /// tables.setgroups(1, &[7, 3, 7])?;
    /// assert_eq!(tables.getids(1)?.supplementary, [7, 3, 7]);
    /// assert_eq!(tables.setgroups(1, &[0; 17]), Err(Errno::Einval));
    /// # Ok::<(), Errno>(())
    /// ```
    pub fn setgroups(&mut self, caller: u64, groups: &[u32]) -> Result<(), Errno> {
        done(ffi::setgroups(&mut self.words, caller, groups))
    }

    /// Whether the caller holds the capability of this number in the namespace.
    ///
    /// Refuses with [`Errno::Einval`] where the number is over [`CAP_LAST_CAP`](crate::CAP_LAST_CAP).
    ///
    /// ```
    /// use oarhatchet::{Tables, CAP_SYS_ADMIN};
    ///
    /// let mut tables = Tables::new();
    /// let child = tables.clone_process(1)?;
    /// assert_eq!(tables.capable(1, child.namespace, CAP_SYS_ADMIN), Ok(true));
    /// assert_eq!(tables.capable(child.process, 0, CAP_SYS_ADMIN), Ok(false));
    /// # Ok::<(), oarhatchet::Errno>(())
    /// ```
    pub fn capable(&self, caller: u64, namespace: u64, number: u32) -> Result<bool, Errno> {
        let code = ffi::oarhatchet_capable(&self.words, caller, namespace, number);
        result_of(code).map(|answer| answer == 1)
    }

    /// Sets the caller's permitted and effective capability sets, bit n for capability n.
    ///
    /// Refuses with [`Errno::Eperm`] where the permitted set gains a capability, or the effective set has one that
    /// the permitted set has not.
    ///
    /// ```
    /// use oarhatchet::{Errno, Tables, CAP_SETGID, CAP_SETUID};
    ///
    /// let mut tables = Tables::new();
    /// let (groups, users) = (1 << CAP_SETGID, 1 << CAP_SETUID);
    /// tables.capset(1, users, 0)?;
    /// assert_eq!(tables.capable(1, 0, CAP_SETUID), Ok(false));
    /// assert_eq!(tables.capset(1, groups | users, users), Err(Errno::Eperm));
    /// # Ok::<(), Errno>(())
    /// ```
    pub fn capset(&mut self, caller: u64, permitted: u64, effective: u64) -> Result<(), Errno> {
        done(ffi::oarhatchet_capset(&mut self.words, caller, permitted, effective))
    }

    /// The caller's own IDs, as its namespace shows them.
    ///
    /// ```
    /// let mut tables = oarhatchet::Tables::new();
    /// let child = tables.clone_process(1)?;
    /// // No ID is mapped in the new namespace yet.
    /// assert_eq!(tables.getids(child.process)?.groups, [oarhatchet::OVERFLOW_ID; 3]);
    /// # Ok::<(), oarhatchet::Errno>(())
    /// ```
    pub fn getids(&self, caller: u64) -> Result<OwnIds, Errno> {
        let mut ids = [0; ffi::IDS];
        let count = length(ffi::oarhatchet_getids(&self.words, caller, &mut ids))?;
        Ok(own_ids(count, ids))
    }

    /// Translates an ID between a namespace and the initial one; `None` where it is not mapped, which is no refusal.
    ///
    /// ```
    /// use oarhatchet::{Kind, Tables, Way};
    ///
    /// let mut tables = Tables::new();
    /// let child = tables.clone_process(1)?;
    /// tables.write_map(Kind::Group, 1, child.process, b"0 100000 10")?;
    /// assert_eq!(tables.translate(Kind::Group, Way::Back, 1, child.namespace, 100007), Ok(Some(7)));
    /// assert_eq!(tables.translate(Kind::Group, Way::Back, 1, child.namespace, 100010), Ok(None));
    /// # Ok::<(), oarhatchet::Errno>(())
    /// ```
    pub fn translate(
        &self,
        kind: Kind,
        way: Way,
        caller: u64,
        namespace: u64,
        id: u32,
    ) -> Result<Option<u32>, Errno> {
        let call = match (kind, way) {
            (Kind::User, Way::Out) => ffi::oarhatchet_translate_uid_out,
            (Kind::User, Way::Back) => ffi::oarhatchet_translate_uid_back,
            (Kind::Group, Way::Out) => ffi::oarhatchet_translate_gid_out,
            (Kind::Group, Way::Back) => ffi::oarhatchet_translate_gid_back,
        };
        result_of(call(&self.words, caller, namespace, id)).map(mapped)
    }

    /// The array, for the calls that a journal makes.
    pub(crate) fn words(&mut self) -> &mut Words {
        &mut self.words
    }
}

impl Default for Tables {
    /// The initial tables.
    fn default() -> Tables {
        Tables::new()
    }
}

impl Clone for Tables {
    fn clone(&self) -> Tables {
        Tables { words: boxed(self.words.to_vec()) }
    }

    /// Copies the tables into those that are there, without a new array.
    fn clone_from(&mut self, source: &Tables) {
        self.words.copy_from_slice(&source.words[..]);
    }
}

impl fmt::Debug for Tables {
    fn fmt(&self, f: &mut fmt::Formatter<'_>) -> fmt::Result {
        f.debug_struct("Tables").finish_non_exhaustive()
    }
}

/// The result of a call whose answer is "done".
fn done(code: i64) -> Result<(), Errno> {
    result_of(code).map(|_| ())
}

/// The result of a call whose answer counts bytes or places of what is lent to it.
fn length(code: i64) -> Result<usize, Errno> {
    result_of(code).map(|answer| answer as usize)
}

/// The own IDs that the archive writes, with so many groups.
pub(crate) fn own_ids(count: usize, ids: [u32; ffi::IDS]) -> OwnIds {
    let [u0, u1, u2, g0, g1, g2, places @ ..] = ids;
    OwnIds {
        users: [u0, u1, u2],
        groups: [g0, g1, g2],
        supplementary: Groups::first(count, places),
    }
}

/// The ID that a translation answers, if there is one.
pub(crate) fn mapped(answer: u64) -> Option<u32> {
    u32::try_from(answer).ok().filter(|id| *id != crate::NO_ID)
}

/// Reads with a longer buffer until the text fits.
fn whole_text(read: impl Fn(&mut [u8]) -> Result<usize, Errno>) -> Result<String, Errno> {
    let mut buffer = vec![0; FIRST_BUFFER];
    loop {
        match read(&mut buffer) {
            Err(Errno::Erange) => buffer.resize(buffer.len() * 2, 0),
            Err(refusal) => return Err(refusal),
            Ok(length) => {
                buffer.truncate(length);
                return Ok(String::from_utf8(buffer).expect("the text of a file is ASCII"));
            }
        }
    }
}
