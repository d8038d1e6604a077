//! The tables of user namespaces and processes, by the rules of user_namespaces(7), and every call on them.
//!
//! The calls are proved code, linked as an archive for x86-64 that `tools/archive` builds. This crate lends them the
//! tables and turns their numbers into Rust types; it asks nothing of its caller, and a bad name, text or list is
//! refused by the call.
//!
//! Process 1 makes a namespace with a child in it, and maps user IDs there:
//!
//! ```
//! use oarhatchet::{Errno, Kind, Tables, Way};
//!
//! # fn main() -> Result<(), Errno> {
//! let mut tables = Tables::new();
//! let child = tables.clone_process(1)?;
//! tables.write_map(Kind::User, 1, child.process, b"0 100000 65536\n")?;
//!
//! let kernel = tables.translate(Kind::User, Way::Out, 1, child.namespace, 65535)?;
//! assert_eq!(kernel, Some(165535));
//! let none = tables.translate(Kind::User, Way::Out, 1, child.namespace, 65536)?;
//! assert_eq!(none, None);
//!
//! let second = tables.write_map(Kind::User, 1, child.process, b"0 200000 65536\n");
//! assert_eq!(second, Err(Errno::Eperm));
//! # Ok(())
//! # }
//! ```
//!
//! Processes are numbered 1 to 128 and namespaces 0 to 63; a new one takes the lowest unused number. A kernel ID is
//! an ID of namespace 0, which is the initial one. The pages in `docs/calls` say in full what each call answers and
//! when it refuses.
//!
//! The module [`journal`] keeps the calls as bytes, and makes them again.
#![deny(unsafe_code)]
#![warn(missing_docs)]

mod errno;
mod ffi;
mod groups;
pub mod journal;
mod tables;

pub use errno::Errno;
pub use groups::Groups;
pub use tables::Tables;

/// The value that means 'no ID'. It is never mapped, and in [`Tables::set_ids`] it leaves an ID as it is.
pub const NO_ID: u32 = 4_294_967_295;

/// What [`Tables::getids`] shows for an ID that is not mapped in the caller's namespace.
pub const OVERFLOW_ID: u32 = 65_534;

/// The number of the capability to change group IDs and to write group maps: capabilities(7).
pub const CAP_SETGID: u32 = 6;

/// The number of the capability to change user IDs and to write user maps: capabilities(7).
pub const CAP_SETUID: u32 = 7;

/// The number of the capability to join a namespace and to write its setgroups setting: capabilities(7).
pub const CAP_SYS_ADMIN: u32 = 21;

/// The highest number that a capability has.
pub const CAP_LAST_CAP: u32 = 36;

/// User IDs with the user maps, or group IDs with the group maps.
#[derive(Clone, Copy, PartialEq, Eq, Hash, Debug)]
pub enum Kind {
    /// User IDs.
    User,
    /// Group IDs, supplementary groups among them.
    Group,
}

/// The way that a translation goes.
#[derive(Clone, Copy, PartialEq, Eq, Hash, Debug)]
pub enum Way {
    /// From a namespace's ID to its kernel ID.
    Out,
    /// From a kernel ID to a namespace's ID.
    Back,
}

/// What [`Tables::clone_process`] makes.
#[derive(Clone, Copy, PartialEq, Eq, Hash, Debug)]
pub struct Child {
    /// The number of the new process.
    pub process: u64,
    /// The number of the new namespace that it is in.
    pub namespace: u64,
}

/// A process's own IDs, as its namespace shows them. One that is not mapped there shows as [`OVERFLOW_ID`].
#[derive(Clone, Copy, PartialEq, Eq, Hash, Debug)]
pub struct OwnIds {
    /// The real, effective and saved user ID.
    pub users: [u32; 3],
    /// The real, effective and saved group ID.
    pub groups: [u32; 3],
    /// The supplementary groups, in order.
    pub supplementary: Groups,
}
