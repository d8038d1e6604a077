//! A journal of calls: each call that is made, as bytes, and from the bytes the same calls again.
//!
//! A [`Recorder`] owns tables and makes calls on them, and first appends the record of each to a writer. [`replay`]
//! makes the calls of a journal on the initial tables and gives each with its answer. The answers and the tables depend
//! on the calls alone, so a journal is also the way to save tables and to restore them.
//!
//! ```
//! use oarhatchet::journal::{replay, Answer, Call, Recorder, Stopped};
//! use oarhatchet::{Child, Errno, Kind, Way};
//!
//! let mut recorder = Recorder::new(Vec::new())?;
//! let child = recorder.clone_process(1)?;
//! recorder.write_map(Kind::User, 1, child.process, b"0 100000 65536\n")?;
//! let second = recorder.write_map(Kind::User, 1, child.process, b"0 0 1\n");
//! assert_eq!(second.unwrap_err().refusal(), Some(Errno::Eperm));
//! let (tables, journal) = recorder.into_parts();
//!
//! let mut calls = replay(&journal);
//! let made: Vec<(Call, Answer)> = calls.by_ref().collect::<Result<_, Stopped>>()?;
//! assert_eq!(made[0].0, Call::Clone { caller: 1 });
//! assert_eq!(made[0].1, Answer::ChildIn(Child { process: 2, namespace: 1 }));
//! assert_eq!(made[1].1, Answer::Done);
//! assert_eq!(made[2].1, Answer::Refused(Errno::Eperm));
//!
//! let again = calls.into_tables();
//! for id in [0, 65535, 65536] {
//!     let there = tables.translate(Kind::User, Way::Out, 1, child.namespace, id);
//!     assert_eq!(again.translate(Kind::User, Way::Out, 1, child.namespace, id), there);
//! }
//! # Ok::<(), Box<dyn std::error::Error>>(())
//! ```
//!
//! `docs/journal.md` has the format. A byte that has a meaning there keeps it, so a journal can be read by every later
//! version.

mod answer;
mod byte;
mod call;
mod recorder;
mod replay;
mod stop;

pub use answer::Answer;
pub use call::Call;
pub use recorder::{RecordError, Recorder};
pub use replay::{replay, Replay};
pub use stop::{Reason, Stopped};

/// The first byte of a journal: the version of its format.
pub const VERSION: u8 = 1;
