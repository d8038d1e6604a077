//! One generated call of each kind.

use super::Generator;
use crate::answer::Answer;
use crate::call::{Call, Direction};
use crate::calls::MAX_GROUPS;
use crate::id_map::{Kind, NO_ID};
use crate::script::FILLER;

/// Texts for the setgroups file that are no setting.
const NEAR_SETTINGS: [&[u8]; 18] = [
    b"",
    b"\n",
    b"allow\n\n",
    b"deny\n\n",
    b"Allow",
    b"DENY",
    b"den",
    b"deny ",
    b" deny",
    b"allo",
    b"allow\0",
    b"allowed",
    b"denyy",
    b"deny\r\n",
    b"\nallow",
    b"allow\tdeny",
    b"allow\nd",
    b"1",
];

impl Generator {
    /// One call of any kind.
    pub(super) fn any_call(&mut self) -> Call {
        let kind = self.kind();
        match self.random.below(if self.with_translate { 116 } else { 100 }) {
            0..=4 => Call::Fork { caller: self.caller() },
            5..=11 => Call::Clone { caller: self.caller() },
            12..=16 => Call::Unshare { caller: self.changing_caller() },
            17..=24 => self.setns_call(),
            25..=42 => {
                let caller = self.caller();
                let process = self.process_to_map(caller);
                self.write_map_call(kind, caller, process)
            }
            43..=49 => self.write_setgroups_call(),
            50..=60 => self.read_call(),
            61..=73 => {
                let caller = self.changing_caller();
                self.set_ids_call(kind, caller)
            }
            74..=80 => self.setgroups_call(),
            81..=87 => self.capable_call(),
            88..=93 => self.capset_call(),
            94..=99 => Call::GetIds { caller: self.caller() },
            _ => self.translate_call(kind),
        }
    }

    pub(super) fn kind(&mut self) -> Kind {
        self.random.pick(&[Kind::User, Kind::Group])
    }

    fn setns_call(&mut self) -> Call {
        let caller = self.changing_caller();
        Call::Setns { caller, namespace: self.named_namespace(caller) }
    }

    /// A process whose maps the caller may write, if a few tries find one.
    fn process_to_map(&mut self, caller: u64) -> u64 {
        let mut process = self.named_process(caller);
        for _ in 0..3 {
            let unwritten = self
                .process(process)
                .is_some_and(|p| !self.tables.namespace_of(p).group_map.is_written());
            if unwritten || self.random.chance(30) {
                break;
            }
            process = self.named_process(caller);
        }
        process
    }

    pub(super) fn write_map_call(&mut self, kind: Kind, caller: u64, process: u64) -> Call {
        Call::WriteMap { kind, caller, process, text: self.map_text(kind, caller, process) }
    }

    fn write_setgroups_call(&mut self) -> Call {
        let caller = self.caller();
        let process = self.named_process(caller);
        let text: &[u8] = if self.go_bad() || self.random.chance(8) {
            self.random.pick(&NEAR_SETTINGS)
        } else {
            self.random.pick(&[&b"deny"[..], b"deny\n", b"allow", b"allow\n"])
        };
        Call::WriteSetgroups { caller, process, text: text.to_vec() }
    }

    /// A read, with a buffer that often just fits or just does not.
    fn read_call(&mut self) -> Call {
        let caller = self.caller();
        let process = self.named_process(caller);
        let call = match self.random.below(3) {
            0 => Call::ReadSetgroups { caller, process, buffer: Vec::new() },
            _ => Call::ReadMap { kind: self.kind(), caller, process, buffer: Vec::new() },
        };
        let text = self.length_of(&call);
        let length = match self.random.below(600) {
            0 => 65_536 - self.random.index(2),
            1..=3 => self.random.index(5_000),
            4..=220 => text,
            221..=340 => text.saturating_sub(1),
            341..=380 => self.random.index(text + 1),
            381..=420 => 0,
            421..=500 => text + 1 + self.random.index(20),
            _ => self.random.index(200),
        };
        lend_to(call, length)
    }

    /// The length of the text that a read gives, 0 if there is none.
    fn length_of(&mut self, read: &Call) -> usize {
        match self.tables.answer(&lend_to(read.clone(), 200)) {
            Answer::Length { length, .. } => length,
            _ => 0,
        }
    }

    /// Set the three IDs: to mapped IDs, to own ones, or left as they are.
    fn set_ids_call(&mut self, kind: Kind, caller: u64) -> Call {
        let home = self.process(caller).map_or(0, |p| p.namespace);
        let together = self.random.chance(30);
        let first = self.one_id(kind, caller, home);
        let mut ids = [first; 3];
        if !together {
            ids[1] = self.one_id(kind, caller, home);
            ids[2] = self.one_id(kind, caller, home);
        }
        Call::SetIds { kind, caller, ids }
    }

    fn one_id(&mut self, kind: Kind, caller: u64, home: u64) -> u32 {
        match self.random.below(10) {
            0..=2 => NO_ID,
            3 => 0,
            4..=6 => self.own_id(kind, caller),
            _ => self.inside_id(kind, home),
        }
    }

    fn setgroups_call(&mut self) -> Call {
        let caller = self.caller();
        let home = self.process(caller).map_or(0, |p| p.namespace);
        let count = match self.random.below(200) {
            0 => 1_000 - self.random.index(2),
            1 => self.random.index(100),
            2..=12 => MAX_GROUPS,
            13..=24 => MAX_GROUPS + 1,
            25..=40 => 0,
            _ => self.random.index(MAX_GROUPS),
        };
        let mut groups: Vec<u32> = Vec::new();
        for _ in 0..count {
            let id = if !groups.is_empty() && self.random.chance(20) {
                self.random.pick(&groups)
            } else {
                self.mapped_group(home)
            };
            groups.push(id);
        }
        if !groups.is_empty() && self.random.chance(15) {
            let place = self.random.index(groups.len());
            let other = self.any_id();
            groups[place] = self.random.pick(&[NO_ID, other]);
        }
        Call::Setgroups { caller, groups }
    }

    /// A group that is mapped in a namespace, if one is.
    fn mapped_group(&mut self, namespace: u64) -> u32 {
        let lines = self.tables.namespaces[&namespace].group_map.lines().to_vec();
        if lines.is_empty() {
            return 0;
        }
        let line = self.random.pick(&lines);
        line.inside + self.random.below(u64::from(line.count.min(2_000))) as u32
    }

    fn capable_call(&mut self) -> Call {
        let caller = self.caller();
        Call::Capable {
            caller,
            namespace: self.named_namespace(caller),
            number: self.capability_number(),
        }
    }

    fn capset_call(&mut self) -> Call {
        let caller = self.changing_caller();
        let held = self.process(caller).map_or(0, |p| p.permitted.0);
        let permitted = match self.random.below(10) {
            0 | 1 => self.more_than(held),
            _ => self.part_of(held),
        };
        let effective = match self.random.below(10) {
            0 | 1 => self.more_than(permitted),
            _ => self.part_of(permitted),
        };
        Call::Capset { caller, permitted, effective }
    }

    fn translate_call(&mut self, kind: Kind) -> Call {
        let caller = self.caller();
        let namespace = self.named_namespace(caller);
        let direction = self.random.pick(&[Direction::Out, Direction::Back]);
        let id = match direction {
            Direction::Out => self.inside_id(kind, namespace),
            Direction::Back => self.kernel_id(kind, namespace),
        };
        Call::Translate { kind, direction, caller, namespace, id }
    }
}

/// The same read with another buffer.
fn lend_to(call: Call, length: usize) -> Call {
    let lent = vec![FILLER; length];
    match call {
        Call::ReadMap { kind, caller, process, .. } => {
            Call::ReadMap { kind, caller, process, buffer: lent }
        }
        Call::ReadSetgroups { caller, process, .. } => {
            Call::ReadSetgroups { caller, process, buffer: lent }
        }
        other => other,
    }
}
