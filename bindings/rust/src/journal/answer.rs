//! What the calls of a journal answer.

use super::Call;
use crate::errno::{result_of, Errno};
use crate::ffi::{Found, WORD_NAMESPACE};
use crate::tables::{mapped, own_ids};
use crate::{Child, OwnIds};

/// What a call of a journal answers when it is made again.
///
/// Calls that are added later may answer otherwise, so a `match` has a case for that.
///
/// ```
/// use oarhatchet::journal::{replay, Answer, Recorder};
/// use oarhatchet::Kind;
///
/// let mut recorder = Recorder::new(Vec::new())?;
/// recorder.read_map(Kind::User, 1, 1, &mut [0; 40])?;
/// let (_, journal) = recorder.into_parts();
/// let (_, answer) = replay(&journal).next().unwrap()?;
/// assert_eq!(answer, Answer::Text("         0          0 4294967295\n".into()));
/// # Ok::<(), Box<dyn std::error::Error>>(())
/// ```
#[derive(Clone, PartialEq, Eq, Hash, Debug)]
#[non_exhaustive]
pub enum Answer {
    /// The call is refused and changes nothing.
    Refused(Errno),
    /// The call is done, and has nothing more to say.
    Done,
    /// The new process of a fork.
    Child(u64),
    /// The new process of a clone, and the new namespace that it is in.
    ChildIn(Child),
    /// The new namespace of an unshare.
    Namespace(u64),
    /// Whether the caller holds the capability.
    Holds(bool),
    /// The text that a read gives.
    Text(String),
    /// The caller's own IDs.
    Ids(OwnIds),
    /// The ID that a translation gives, if it is mapped.
    Id(Option<u32>),
}

impl Answer {
    /// The answer that the archive gives for a call as a number, with what it has written.
    pub(super) fn of(call: &Call, code: i64, found: &Found) -> Answer {
        let answer = match result_of(code) {
            Ok(answer) => answer,
            Err(errno) => return Answer::Refused(errno),
        };
        match call {
            Call::Fork { .. } => Answer::Child(answer),
            Call::Clone { .. } => {
                Answer::ChildIn(Child { process: answer, namespace: found.record[WORD_NAMESPACE] })
            }
            Call::Unshare { .. } => Answer::Namespace(answer),
            Call::Setns { .. }
            | Call::WriteMap { .. }
            | Call::WriteSetgroups { .. }
            | Call::SetIds { .. }
            | Call::Setgroups { .. }
            | Call::Capset { .. } => Answer::Done,
            Call::ReadMap { .. } | Call::ReadSetgroups { .. } => {
                let text = found.buffer[..answer as usize].to_vec();
                Answer::Text(String::from_utf8(text).expect("the text of a file is ASCII"))
            }
            Call::Capable { .. } => Answer::Holds(answer == 1),
            Call::Getids { .. } => Answer::Ids(own_ids(answer as usize, found.ids)),
            Call::Translate { .. } => Answer::Id(mapped(answer)),
        }
    }
}
