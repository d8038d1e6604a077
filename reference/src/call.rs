//! The calls as values, each with all its arguments, and what runs one.

use crate::answer::Answer;
use crate::capability::CapabilitySet;
use crate::id_map::Kind;
use crate::tables::Tables;

#[derive(Clone, Copy, PartialEq, Eq, Debug)]
pub enum Direction {
    Out,
    Back,
}

/// A call with all its arguments; a read lends its buffer.
#[derive(Clone, PartialEq, Eq, Debug)]
pub enum Call {
    Fork {
        caller: u64,
    },
    Clone {
        caller: u64,
    },
    Unshare {
        caller: u64,
    },
    Setns {
        caller: u64,
        namespace: u64,
    },
    WriteMap {
        kind: Kind,
        caller: u64,
        process: u64,
        text: Vec<u8>,
    },
    WriteSetgroups {
        caller: u64,
        process: u64,
        text: Vec<u8>,
    },
    ReadMap {
        kind: Kind,
        caller: u64,
        process: u64,
        buffer: Vec<u8>,
    },
    ReadSetgroups {
        caller: u64,
        process: u64,
        buffer: Vec<u8>,
    },
    SetIds {
        kind: Kind,
        caller: u64,
        /// Real, effective and saved.
        ids: [u32; 3],
    },
    Setgroups {
        caller: u64,
        groups: Vec<u32>,
    },
    Capable {
        caller: u64,
        namespace: u64,
        number: u32,
    },
    Capset {
        caller: u64,
        permitted: u64,
        effective: u64,
    },
    GetIds {
        caller: u64,
    },
    Translate {
        kind: Kind,
        direction: Direction,
        caller: u64,
        namespace: u64,
        id: u32,
    },
}

impl Call {
    pub fn caller(&self) -> u64 {
        match self {
            Call::Fork { caller }
            | Call::Clone { caller }
            | Call::Unshare { caller }
            | Call::Setns { caller, .. }
            | Call::WriteMap { caller, .. }
            | Call::WriteSetgroups { caller, .. }
            | Call::ReadMap { caller, .. }
            | Call::ReadSetgroups { caller, .. }
            | Call::SetIds { caller, .. }
            | Call::Setgroups { caller, .. }
            | Call::Capable { caller, .. }
            | Call::Capset { caller, .. }
            | Call::GetIds { caller }
            | Call::Translate { caller, .. } => *caller,
        }
    }
}

impl Tables {
    /// Runs one call. A refusal leaves the tables and the lent buffer as they are.
    pub fn answer(&mut self, call: &Call) -> Answer {
        let result = match call {
            Call::Fork { caller } => self.fork(*caller),
            Call::Clone { caller } => self.clone_process(*caller),
            Call::Unshare { caller } => self.unshare(*caller),
            Call::Setns { caller, namespace } => self.setns(*caller, *namespace),
            Call::WriteMap { kind, caller, process, text } => {
                self.write_map(*kind, *caller, *process, text)
            }
            Call::WriteSetgroups { caller, process, text } => {
                self.write_setgroups(*caller, *process, text)
            }
            Call::ReadMap { kind, caller, process, buffer } => {
                return self.read_map(*kind, *caller, *process, buffer)
            }
            Call::ReadSetgroups { caller, process, buffer } => {
                return self.read_setgroups(*caller, *process, buffer)
            }
            Call::SetIds { kind, caller, ids } => self.set_ids(*kind, *caller, ids),
            Call::Setgroups { caller, groups } => self.setgroups(*caller, groups),
            Call::Capable { caller, namespace, number } => {
                self.capable(*caller, *namespace, *number)
            }
            Call::Capset { caller, permitted, effective } => {
                self.capset(*caller, CapabilitySet(*permitted), CapabilitySet(*effective))
            }
            Call::GetIds { caller } => self.own_ids(*caller),
            Call::Translate { kind, direction, caller, namespace, id } => {
                self.translate(*kind, *direction, *caller, *namespace, *id)
            }
        };
        result.unwrap_or_else(Answer::Refused)
    }
}
