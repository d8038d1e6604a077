//! The tables of namespaces and processes, with the questions that calls ask of them.

use std::collections::BTreeMap;

use crate::answer::Rule;
use crate::id_map::Kind;
use crate::namespace::Namespace;
use crate::process::{KernelId, Process};

/// "At most 64 namespaces, numbered 0 to 63"
pub const MAX_NAMESPACES: u64 = 64;
/// "The process table has 128 places"
pub const MAX_PROCESSES: u64 = 128;
/// "Levels reach 32 at most."
pub const MAX_LEVEL: u32 = 32;

#[derive(Clone, PartialEq, Eq, Debug)]
pub struct Tables {
    pub namespaces: BTreeMap<u64, Namespace>,
    pub processes: BTreeMap<u64, Process>,
}

impl Tables {
    /// The initial tables (document 01: the fresh start).
    pub fn initial() -> Tables {
        Tables {
            namespaces: BTreeMap::from([(0, Namespace::initial())]),
            processes: BTreeMap::from([(1, Process::initial())]),
        }
    }

    /// "First always: the caller must exist ... else 3."
    pub fn caller(&self, name: u64) -> Result<&Process, Rule> {
        self.processes.get(&name).ok_or(Rule::NoSuchCaller)
    }

    /// "then the process ... named, else 3"
    pub fn named_process(&self, name: u64) -> Result<&Process, Rule> {
        self.processes.get(&name).ok_or(Rule::NoSuchProcess)
    }

    /// "then the ... namespace named, else 3"
    pub fn named_namespace(&self, name: u64) -> Result<&Namespace, Rule> {
        self.namespaces.get(&name).ok_or(Rule::NoSuchNamespace)
    }

    /// The namespace that a process of the tables is in.
    pub fn namespace_of(&self, process: &Process) -> &Namespace {
        &self.namespaces[&process.namespace]
    }

    /// "New ones take the lowest unused number", here of 0 to 63.
    pub fn free_namespace(&self) -> Option<u64> {
        (0..MAX_NAMESPACES).find(|name| !self.namespaces.contains_key(name))
    }

    /// "new ones take the lowest unused number", here of 1 to 128.
    pub fn free_process(&self) -> Option<u64> {
        (1..=MAX_PROCESSES).find(|name| !self.processes.contains_key(name))
    }

    /// "Going out adds the offset to the parent start; repeat level by level to namespace 0."
    pub fn to_kernel(&self, kind: Kind, namespace: u64, inside: u32) -> Option<KernelId> {
        let namespace = &self.namespaces[&namespace];
        let outside = namespace.map(kind).to_parent(inside)?;
        match namespace.parent {
            Some(parent) => self.to_kernel(kind, parent, outside),
            None => Some(KernelId(outside)),
        }
    }

    /// "Coming back undoes this from namespace 0 down."
    pub fn from_kernel(&self, kind: Kind, namespace: u64, kernel: KernelId) -> Option<u32> {
        let namespace = &self.namespaces[&namespace];
        let outside = match namespace.parent {
            Some(parent) => self.from_kernel(kind, parent, kernel)?,
            None => kernel.0,
        };
        namespace.map(kind).from_parent(outside)
    }

    /// Whether `process` holds `capability` in the namespace named: "The walk goes up from the named
    /// namespace and stops at the first rule that decides."
    pub fn holds(&self, process: &Process, capability: u32, named: u64) -> bool {
        let mut at = named;
        loop {
            let namespace = &self.namespaces[&at];
            // "At the process's own namespace: yes if the effective set has it, else no."
            if at == process.namespace {
                return process.effective.has(capability);
            }
            // "At a namespace whose parent is the process's own and whose owner equals its effective user ID: yes."
            if namespace.parent == Some(process.namespace)
                && namespace.owner == process.user.effective
            {
                return true;
            }
            match namespace.parent {
                // "At namespace 0 with neither: no."
                None => return false,
                // "Otherwise go on at the parent."
                Some(parent) => at = parent,
            }
        }
    }
}
