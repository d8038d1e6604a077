//! The choice of processes, namespaces, IDs and capability sets for generated calls.

use super::Generator;
use crate::calls::OVERFLOW_ID;
use crate::capability::{CapabilitySet, LAST, SETGID, SETUID, SYS_ADMIN};
use crate::id_map::{Kind, NO_ID};
use crate::process::Process;
use crate::tables::{MAX_NAMESPACES, MAX_PROCESSES};

/// Names that no process and no namespace has, some of them equal to small ones in fewer bits.
const DEAD_NAMES: [u64; 9] = [
    MAX_PROCESSES + 1,
    MAX_NAMESPACES,
    256,
    257,
    1 << 32,
    (1 << 32) + 1,
    1 << 63,
    (1 << 63) + 1,
    u64::MAX,
];

impl Generator {
    /// Whether the next argument is bad on purpose.
    pub(super) fn go_bad(&mut self) -> bool {
        let bad = self.bad;
        self.random.chance(bad)
    }

    pub(super) fn process(&self, name: u64) -> Option<&Process> {
        self.tables.processes.get(&name)
    }

    /// A process that exists; later ones come more often.
    pub(super) fn live_process(&mut self) -> u64 {
        let last = self.tables.processes.len() as u64;
        if self.random.chance(40) {
            last - self.random.below(last.min(6))
        } else {
            1 + self.random.below(last)
        }
    }

    /// A caller, mostly one that exists.
    pub(super) fn caller(&mut self) -> u64 {
        let dead = self.bad / 3 + 1;
        if self.random.chance(dead) {
            self.dead_process()
        } else {
            self.live_process()
        }
    }

    /// A caller for a call that changes it for good. Process 1 mostly sends a child instead.
    pub(super) fn changing_caller(&mut self) -> u64 {
        let caller = self.caller();
        if caller == 1 && self.random.chance(85) {
            return self.fork_of(1).unwrap_or(1);
        }
        caller
    }

    pub(super) fn dead_process(&mut self) -> u64 {
        match self.random.below(3) {
            0 => 0,
            1 => self.tables.processes.len() as u64 + 1,
            _ => self.random.pick(&DEAD_NAMES),
        }
    }

    /// A process to name for a file of its namespace.
    pub(super) fn named_process(&mut self, caller: u64) -> u64 {
        if self.go_bad() {
            return self.dead_process();
        }
        match self.random.below(3) {
            0 => caller,
            1 => self.member_below(caller).unwrap_or(caller),
            _ => self.live_process(),
        }
    }

    /// A process in a namespace whose parent is the caller's.
    fn member_below(&mut self, caller: u64) -> Option<u64> {
        let home = self.process(caller)?.namespace;
        let below = |p: &Process| self.tables.namespace_of(p).parent == Some(home);
        let names: Vec<u64> = self
            .tables
            .processes
            .iter()
            .filter(|(_, process)| below(process))
            .map(|(name, _)| *name)
            .collect();
        (!names.is_empty()).then(|| self.random.pick(&names))
    }

    pub(super) fn live_namespace(&mut self) -> u64 {
        self.random.below(self.tables.namespaces.len() as u64)
    }

    /// A namespace to name: below the caller, above it, its own or any.
    pub(super) fn named_namespace(&mut self, caller: u64) -> u64 {
        if self.go_bad() && self.random.chance(60) {
            return match self.random.below(2) {
                0 => self.tables.namespaces.len() as u64,
                _ => self.random.pick(&DEAD_NAMES),
            };
        }
        let home = self.process(caller).map_or(0, |p| p.namespace);
        match self.random.below(8) {
            0 => home,
            1 => self.tables.namespaces[&home].parent.unwrap_or(0),
            2..=4 => self.namespace_below(home).unwrap_or(home),
            _ => self.live_namespace(),
        }
    }

    fn namespace_below(&mut self, home: u64) -> Option<u64> {
        let names: Vec<u64> = self
            .tables
            .namespaces
            .iter()
            .filter(|(_, namespace)| namespace.parent == Some(home))
            .map(|(name, _)| *name)
            .collect();
        (!names.is_empty()).then(|| self.random.pick(&names))
    }

    /// An ID inside a namespace, mostly a mapped one, often at the end of a line.
    pub(super) fn inside_id(&mut self, kind: Kind, namespace: u64) -> u32 {
        if self.go_bad() {
            return self.any_id();
        }
        let lines = match self.tables.namespaces.get(&namespace) {
            Some(namespace) => namespace.map(kind).lines().to_vec(),
            None => Vec::new(),
        };
        if lines.is_empty() {
            return self.small_id();
        }
        let line = self.random.pick(&lines);
        let offset = match self.random.below(20) {
            0..=6 => 0,
            7..=10 => line.count - 1,
            11 => line.count,
            12 => return line.inside.wrapping_sub(1),
            _ => self.random.below(u64::from(line.count.min(3000))) as u32,
        };
        line.inside.wrapping_add(offset)
    }

    /// A kernel ID to bring back into a namespace, mostly one that is mapped there.
    pub(super) fn kernel_id(&mut self, kind: Kind, namespace: u64) -> u32 {
        let inside = self.inside_id(kind, namespace);
        if self.random.chance(15) || !self.tables.namespaces.contains_key(&namespace) {
            return inside;
        }
        match self.tables.to_kernel(kind, namespace, inside) {
            Some(kernel) => kernel.0.wrapping_add(self.random.pick(&[0, 0, 0, 0, 1, u32::MAX])),
            None => self.any_id(),
        }
    }

    /// One of the caller's own IDs, as seen in its namespace.
    pub(super) fn own_id(&mut self, kind: Kind, caller: u64) -> u32 {
        let Some(process) = self.process(caller).cloned() else {
            return self.small_id();
        };
        let id = self.random.pick(&process.ids(kind).list());
        self.tables.from_kernel(kind, process.namespace, id).unwrap_or(0)
    }

    pub(super) fn small_id(&mut self) -> u32 {
        self.random.pick(&[0, 0, 1, 5, 10, 1000, 1001, 1002, OVERFLOW_ID])
    }

    pub(super) fn any_id(&mut self) -> u32 {
        match self.random.below(4) {
            0 => self.small_id(),
            1 => self.random.pick(&[65535, 65536, 100_000, 165_535, 165_536, 1 << 31]),
            2 => self.random.pick(&[NO_ID, NO_ID - 1, NO_ID - 2]),
            _ => self.random.next() as u32,
        }
    }

    pub(super) fn capability_number(&mut self) -> u32 {
        if self.go_bad() || self.random.chance(3) {
            return self.random.pick(&[LAST + 1, LAST + 2, 64, 70, 71, 85, 263, 1 << 31, u32::MAX]);
        }
        match self.random.below(2) {
            0 => self.random.pick(&[SETGID, SETUID, SYS_ADMIN]),
            _ => self.random.below(41) as u32,
        }
    }

    /// A part of `set`, often all of it or all but one of the capabilities that matter.
    pub(super) fn part_of(&mut self, set: u64) -> u64 {
        match self.random.below(8) {
            0..=2 => set,
            3 => 0,
            4 | 5 => set & !(1 << self.random.pick(&[SETGID, SETUID, SYS_ADMIN])),
            6 => set & (1 << self.random.pick(&[SETGID, SETUID, SYS_ADMIN])),
            _ => set & self.random.next(),
        }
    }

    /// A set that is likely no part of another.
    pub(super) fn more_than(&mut self, set: u64) -> u64 {
        match self.random.below(5) {
            0 => set | 1 << self.random.below(u64::from(u64::BITS)),
            1 => set | 1 << self.random.below(u64::from(LAST) + 1),
            2 => CapabilitySet::FULL.0,
            3 => set | 1 << (LAST + 1),
            _ => self.random.pick(&[u64::MAX, 1 << 63, 0x3f_ffff_ffff, 0x20_0000_0000]),
        }
    }
}
