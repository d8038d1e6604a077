//! A second implementation of the tables of user namespaces and processes and of the calls on them,
//! written as plainly as the rules are; its answers are compared with those of the proved one.

pub mod answer;
pub mod call;
mod calls;
pub mod capability;
pub mod compare;
pub mod count;
mod files;
pub mod generate;
pub mod hex;
pub mod id_map;
pub mod journal;
pub mod namespace;
pub mod process;
pub mod random;
pub mod script;
pub mod show;
pub mod tables;

pub use answer::{Answer, Errno, Rule};
pub use call::{Call, Direction};
pub use id_map::Kind;
pub use tables::Tables;
