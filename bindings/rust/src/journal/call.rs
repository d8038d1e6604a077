//! The calls that a journal has.

use super::byte;
use crate::ffi::{Found, WORD_CALL, WORD_IDS, WORD_NAMES, WORD_NUMBERS, WORD_TAIL, WORD_TEXT};
use crate::{Kind, Way};

/// A call that was read from a journal, with all its arguments. Of a read's buffer a journal keeps the length.
///
/// Calls that are added later have other variants, so a `match` has a case for them.
///
/// ```
/// use oarhatchet::journal::{replay, Call, Recorder};
///
/// let mut recorder = Recorder::new(Vec::new())?;
/// recorder.setgroups(1, &[7, 3])?;
/// let (_, journal) = recorder.into_parts();
/// let (call, _) = replay(&journal).next().unwrap()?;
/// assert_eq!(call, Call::Setgroups { caller: 1, groups: vec![7, 3] });
/// assert_eq!(call.caller(), 1);
/// # Ok::<(), Box<dyn std::error::Error>>(())
/// ```
#[derive(Clone, PartialEq, Eq, Hash, Debug)]
#[non_exhaustive]
#[allow(missing_docs)] // The fields are the parameters of the methods named.
pub enum Call {
    /// [`Tables::fork`](crate::Tables::fork).
    Fork { caller: u64 },
    /// [`Tables::clone_process`](crate::Tables::clone_process).
    Clone { caller: u64 },
    /// [`Tables::unshare`](crate::Tables::unshare).
    Unshare { caller: u64 },
    /// [`Tables::setns`](crate::Tables::setns).
    Setns { caller: u64, namespace: u64 },
    /// [`Tables::write_map`](crate::Tables::write_map).
    WriteMap { kind: Kind, caller: u64, process: u64, text: Vec<u8> },
    /// [`Tables::write_setgroups`](crate::Tables::write_setgroups).
    WriteSetgroups { caller: u64, process: u64, text: Vec<u8> },
    /// [`Tables::read_map`](crate::Tables::read_map), with the length of its buffer.
    ReadMap { kind: Kind, caller: u64, process: u64, length: u32 },
    /// [`Tables::read_setgroups`](crate::Tables::read_setgroups), with the length of its buffer.
    ReadSetgroups { caller: u64, process: u64, length: u32 },
    /// [`Tables::set_ids`](crate::Tables::set_ids): the real, effective and saved ID.
    SetIds { kind: Kind, caller: u64, ids: [u32; 3] },
    /// [`Tables::setgroups`](crate::Tables::setgroups).
    Setgroups { caller: u64, groups: Vec<u32> },
    /// [`Tables::capable`](crate::Tables::capable).
    Capable { caller: u64, namespace: u64, number: u32 },
    /// [`Tables::capset`](crate::Tables::capset).
    Capset { caller: u64, permitted: u64, effective: u64 },
    /// [`Tables::getids`](crate::Tables::getids).
    Getids { caller: u64 },
    /// [`Tables::translate`](crate::Tables::translate).
    Translate { kind: Kind, way: Way, caller: u64, namespace: u64, id: u32 },
}

impl Call {
    /// The process that makes the call.
    pub fn caller(&self) -> u64 {
        match *self {
            Call::Fork { caller }
            | Call::Clone { caller }
            | Call::Unshare { caller }
            | Call::Setns { caller, .. }
            | Call::WriteMap { caller, .. }
            | Call::WriteSetgroups { caller, .. }
            | Call::ReadMap { caller, .. }
            | Call::ReadSetgroups { caller, .. }
            | Call::SetIds { caller, .. }
            | Call::Setgroups { caller, .. }
            | Call::Capable { caller, .. }
            | Call::Capset { caller, .. }
            | Call::Getids { caller }
            | Call::Translate { caller, .. } => caller,
        }
    }

    /// The call of the record that was found in a journal.
    pub(super) fn of(found: &Found, journal: &[u8]) -> Call {
        let words = &found.record;
        let [caller, second, third] = [0, 1, 2].map(|place| words[WORD_NAMES + place]);
        let ids = [0, 1, 2].map(|place| words[WORD_NUMBERS + place] as u32);
        let number = ids[0];
        let text = || {
            let start = words[WORD_TAIL] as usize;
            journal[start..start + words[WORD_TEXT] as usize].to_vec()
        };
        let write_map = |kind| Call::WriteMap { kind, caller, process: second, text: text() };
        let read_map = |kind| Call::ReadMap { kind, caller, process: second, length: number };
        let translate =
            |kind, way| Call::Translate { kind, way, caller, namespace: second, id: number };
        match words[WORD_CALL] as u8 {
            byte::FORK => Call::Fork { caller },
            byte::CLONE => Call::Clone { caller },
            byte::UNSHARE => Call::Unshare { caller },
            byte::SETNS => Call::Setns { caller, namespace: second },
            byte::WRITE_UID_MAP => write_map(Kind::User),
            byte::WRITE_GID_MAP => write_map(Kind::Group),
            byte::WRITE_SETGROUPS => Call::WriteSetgroups { caller, process: second, text: text() },
            byte::READ_UID_MAP => read_map(Kind::User),
            byte::READ_GID_MAP => read_map(Kind::Group),
            byte::READ_SETGROUPS => Call::ReadSetgroups { caller, process: second, length: number },
            byte::SETRESUID => Call::SetIds { kind: Kind::User, caller, ids },
            byte::SETRESGID => Call::SetIds { kind: Kind::Group, caller, ids },
            byte::SETGROUPS => {
                let count = words[WORD_IDS] as usize;
                Call::Setgroups { caller, groups: found.list[..count].to_vec() }
            }
            byte::CAPSET => Call::Capset { caller, permitted: second, effective: third },
            byte::GETIDS => Call::Getids { caller },
            byte::CAPABLE => Call::Capable { caller, namespace: second, number },
            byte::TRANSLATE_UID_OUT => translate(Kind::User, Way::Out),
            byte::TRANSLATE_UID_BACK => translate(Kind::User, Way::Back),
            byte::TRANSLATE_GID_OUT => translate(Kind::Group, Way::Out),
            byte::TRANSLATE_GID_BACK => translate(Kind::Group, Way::Back),
            other => panic!("the archive finds the call byte {other:#x}, which no call has"),
        }
    }
}
