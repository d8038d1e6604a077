//! The calls on processes, namespaces, IDs and capabilities, each with its refusals in document 01's order.

use crate::answer::{Answer, Rule};
use crate::call::Direction;
use crate::capability::{self, CapabilitySet};
use crate::id_map::{IdMap, Kind, NO_ID};
use crate::namespace::{Namespace, SetgroupsSetting};
use crate::process::{Ids, KernelId, Process};
use crate::tables::{Tables, MAX_LEVEL};

/// "up to 16 supplementary groups"
pub const MAX_GROUPS: usize = 16;
/// What an untranslatable ID shows as when a process asks for its own IDs.
pub const OVERFLOW_ID: u32 = 65_534;

impl Tables {
    pub(crate) fn fork(&mut self, caller: u64) -> Result<Answer, Rule> {
        let process = self.caller(caller)?.clone();
        // "11 if the process table is full"
        let child = self.free_process().ok_or(Rule::ProcessesFull)?;
        // "Copies all but the number."
        self.processes.insert(child, process);
        Ok(Answer::Child(child))
    }

    pub(crate) fn clone_process(&mut self, caller: u64) -> Result<Answer, Rule> {
        let mut process = self.caller(caller)?.clone();
        let (name, namespace) = self.new_namespace(&process)?;
        // "for clone, 11 if no process is free"
        let child = self.free_process().ok_or(Rule::ProcessesFull)?;
        // "The child (clone) ... becomes a member with both sets full and its IDs unchanged."
        process.enter(name);
        self.namespaces.insert(name, namespace);
        self.processes.insert(child, process);
        Ok(Answer::ChildInNamespace { child, namespace: name })
    }

    pub(crate) fn unshare(&mut self, caller: u64) -> Result<Answer, Rule> {
        let mut process = self.caller(caller)?.clone();
        let (name, namespace) = self.new_namespace(&process)?;
        // "The ... caller (unshare) becomes a member with both sets full and its IDs unchanged."
        process.enter(name);
        self.namespaces.insert(name, namespace);
        self.processes.insert(caller, process);
        Ok(Answer::Namespace(name))
    }

    /// The namespace that `creator` makes by clone or unshare, with its number; nothing is stored.
    fn new_namespace(&self, creator: &Process) -> Result<(u64, Namespace), Rule> {
        let parent = self.namespace_of(creator);
        // "87 if the caller's level is 32"
        if parent.level == MAX_LEVEL {
            return Err(Rule::LevelFull);
        }
        // "1 if its effective user or group ID has no translation into its own namespace"
        if !self.shows(Kind::User, creator) {
            return Err(Rule::EffectiveUserUnmapped);
        }
        if !self.shows(Kind::Group, creator) {
            return Err(Rule::EffectiveGroupUnmapped);
        }
        // "28 if no namespace is free"
        let name = self.free_namespace().ok_or(Rule::NamespacesFull)?;
        // "The setgroups setting is copied; both maps are unwritten."
        let namespace = Namespace {
            parent: Some(creator.namespace),
            level: parent.level + 1,
            owner: creator.user.effective,
            user_map: IdMap::Unwritten,
            group_map: IdMap::Unwritten,
            setgroups: parent.setgroups,
        };
        Ok((name, namespace))
    }

    /// Whether the effective ID of `process` has a translation into its own namespace.
    fn shows(&self, kind: Kind, process: &Process) -> bool {
        self.from_kernel(kind, process.namespace, process.ids(kind).effective).is_some()
    }

    pub(crate) fn setns(&mut self, caller: u64, target: u64) -> Result<Answer, Rule> {
        let mut process = self.caller(caller)?.clone();
        self.named_namespace(target)?;
        // "22 if already a member"
        if process.namespace == target {
            return Err(Rule::AlreadyMember);
        }
        // "1 without SYS_ADMIN in the target"
        if !self.holds(&process, capability::SYS_ADMIN, target) {
            return Err(Rule::NoSysAdmin);
        }
        // "Then both sets full, IDs unchanged."
        process.enter(target);
        self.processes.insert(caller, process);
        Ok(Answer::Done)
    }

    pub(crate) fn set_ids(
        &mut self,
        kind: Kind,
        caller: u64,
        given: &[u32; 3],
    ) -> Result<Answer, Rule> {
        let mut process = self.caller(caller)?.clone();
        let before = *process.ids(kind);
        let mut after = before.list();
        for (id, now) in given.iter().zip(after.iter_mut()) {
            // "4,294,967,295 leaves one as it is; 22 if another given ID has no translation out"
            if *id != NO_ID {
                *now = self.to_kernel(kind, process.namespace, *id).ok_or(Rule::IdUnmapped)?;
            }
        }
        // "1 if, without SETUID in its own namespace, any is none of the caller's present three"
        let privileged = self.holds(&process, capability_over(kind), process.namespace);
        if !privileged && after.iter().any(|id| !before.contain(*id)) {
            return Err(Rule::IdNotPresent);
        }
        let after = Ids { real: after[0], effective: after[1], saved: after[2] };
        // "Group IDs alike with SETGID, with no effect on the sets."
        if kind == Kind::User {
            self.lower_sets(&mut process, &before, &after);
        }
        *process.ids_mut(kind) = after;
        self.processes.insert(caller, process);
        Ok(Answer::Done)
    }

    /// The effect of a change of user IDs on the capability sets.
    fn lower_sets(&self, process: &mut Process, before: &Ids, after: &Ids) {
        if let Some(root) = self.to_kernel(Kind::User, process.namespace, 0) {
            // "If one of the three was the namespace's ID 0 and none is now, both sets are emptied."
            if before.contain(root) && !after.contain(root) {
                process.permitted = CapabilitySet::EMPTY;
                process.effective = CapabilitySet::EMPTY;
            }
            // "If the effective ID was 0 and is not now, the effective set is emptied."
            if before.effective == root && after.effective != root {
                process.effective = CapabilitySet::EMPTY;
            }
        }
    }

    pub(crate) fn setgroups(&mut self, caller: u64, groups: &[u32]) -> Result<Answer, Rule> {
        let mut process = self.caller(caller)?.clone();
        let namespace = self.namespace_of(&process);
        // "1 without SETGID in its own namespace"
        if !self.holds(&process, capability::SETGID, process.namespace) {
            return Err(Rule::NoSetgid);
        }
        // "or group map unwritten"
        if !namespace.group_map.is_written() {
            return Err(Rule::GroupMapUnwritten);
        }
        // "or "deny""
        if namespace.setgroups == SetgroupsSetting::Deny {
            return Err(Rule::SetgroupsDenied);
        }
        // "22 over 16 groups"
        if groups.len() > MAX_GROUPS {
            return Err(Rule::TooManyGroups);
        }
        // "22 if one has no translation"
        let kernel: Option<Vec<KernelId>> =
            groups.iter().map(|id| self.to_kernel(Kind::Group, process.namespace, *id)).collect();
        // "The new list replaces the old, in the order given, repeats kept."
        process.groups = kernel.ok_or(Rule::GroupUnmapped)?;
        self.processes.insert(caller, process);
        Ok(Answer::Done)
    }

    pub(crate) fn capable(&self, caller: u64, namespace: u64, number: u32) -> Result<Answer, Rule> {
        let process = self.caller(caller)?;
        self.named_namespace(namespace)?;
        // "22 if the number is over 36, else yes or no"
        if number > capability::LAST {
            return Err(Rule::CapabilityOverLast);
        }
        if self.holds(process, number, namespace) {
            Ok(Answer::Yes)
        } else {
            Ok(Answer::No)
        }
    }

    pub(crate) fn capset(
        &mut self,
        caller: u64,
        permitted: CapabilitySet,
        effective: CapabilitySet,
    ) -> Result<Answer, Rule> {
        let mut process = self.caller(caller)?.clone();
        // "a drop of capabilities, which never adds one to the permitted set ... Else 1."
        if !permitted.is_part_of(process.permitted) {
            return Err(Rule::PermittedAdded);
        }
        // "the new effective set is any part of the new permitted. Else 1."
        if !effective.is_part_of(permitted) {
            return Err(Rule::EffectiveNotPart);
        }
        process.permitted = permitted;
        process.effective = effective;
        self.processes.insert(caller, process);
        Ok(Answer::Done)
    }

    pub(crate) fn own_ids(&self, caller: u64) -> Result<Answer, Rule> {
        let process = self.caller(caller)?;
        // "as seen in its namespace; an untranslatable one shows as 65534"
        let show = |kind, id| self.from_kernel(kind, process.namespace, id).unwrap_or(OVERFLOW_ID);
        Ok(Answer::OwnIds {
            user: process.user.list().map(|id| show(Kind::User, id)),
            group: process.group.list().map(|id| show(Kind::Group, id)),
            groups: process.groups.iter().map(|id| show(Kind::Group, *id)).collect(),
        })
    }

    pub(crate) fn translate(
        &self,
        kind: Kind,
        direction: Direction,
        caller: u64,
        namespace: u64,
        id: u32,
    ) -> Result<Answer, Rule> {
        self.caller(caller)?;
        self.named_namespace(namespace)?;
        // "an ID, or "unmapped", which is an answer"
        let translated = match direction {
            Direction::Out => self.to_kernel(kind, namespace, id).map(|kernel| kernel.0),
            Direction::Back => self.from_kernel(kind, namespace, KernelId(id)),
        };
        Ok(translated.map_or(Answer::Unmapped, Answer::Id))
    }
}

/// SETUID for user IDs and maps, SETGID for group IDs and maps.
pub(crate) fn capability_over(kind: Kind) -> u32 {
    match kind {
        Kind::User => capability::SETUID,
        Kind::Group => capability::SETGID,
    }
}
