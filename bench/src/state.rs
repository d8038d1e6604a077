//! The states that calls are timed in, made by calls on both implementations.

use oarhatchet::{CAP_LAST_CAP, NO_ID};
use reference::{Answer, Call, Kind};

#[path = "../../bindings/rust/tests/common/mod.rs"]
mod common;

use common::{outcome, outcome_on_reference, Outcome};

/// Namespaces at level 1 in the common state.
const NAMESPACES: u64 = 16;
/// A map of one line, as the common state has it in its first namespace.
pub const ONE_LINE: &str = "0 100000 65536\n";
/// A map of five lines out of namespace 0.
pub const FIVE_LINES: &str =
    "0 100000 1000\n1000 102000 1000\n2000 104000 1000\n3000 106000 1000\n4000 108000 1000\n";
/// A map of five lines below another one.
pub const FIVE_BELOW: &str =
    "0 0 1000\n1000 1000 1000\n2000 2000 1000\n3000 3000 1000\n4000 4000 1000\n";
/// A map of five lines with as many digits as there can be. Each line lies in the last line of a worst map.
pub const LONG_LINES: &str = "1000000000 1000001000 1000000000\n\
    2000000000 2000001000 1000000000\n\
    3000000000 3000001000 1000000000\n\
    4000000000 4000001000 100000000\n\
    4100000000 4100001000 100000000\n";
/// The IDs from 0 on that the maps of five lines have.
pub const MAPPED_IDS: u32 = 5000;
/// An ID in the last of five lines.
pub const LAST_LINE_ID: u32 = 4500;
/// The most supplementary groups of a process.
pub const MAX_GROUPS: u32 = 16;
/// The set of all capabilities.
pub const FULL: u64 = (1 << (CAP_LAST_CAP + 1)) - 1;
/// The places of the process table.
const PROCESSES: u64 = 128;

/// The same tables in both implementations.
#[derive(Clone)]
pub struct State {
    pub tables: oarhatchet::Tables,
    pub reference: reference::Tables,
}

impl State {
    /// The initial tables.
    fn initial() -> State {
        State { tables: oarhatchet::Tables::new(), reference: reference::Tables::initial() }
    }

    /// Makes a call on both, which have to answer alike and not to refuse.
    pub fn make(&mut self, call: Call) -> Answer {
        let given = outcome(&mut self.tables, &call);
        assert_eq!(given, outcome_on_reference(&mut self.reference, &call), "{call:?}");
        match given {
            Outcome::Answer(answer) => answer,
            Outcome::Refused { number, .. } => panic!("{call:?} is refused with {number}"),
        }
    }

    pub fn fork(&mut self, caller: u64) -> u64 {
        match self.make(Call::Fork { caller }) {
            Answer::Child(child) => child,
            answer => panic!("fork answers {answer:?}"),
        }
    }

    /// The process and the namespace that a clone makes.
    pub fn clone_process(&mut self, caller: u64) -> (u64, u64) {
        match self.make(Call::Clone { caller }) {
            Answer::ChildInNamespace { child, namespace } => (child, namespace),
            answer => panic!("clone answers {answer:?}"),
        }
    }

    /// Gives a process the same three user and group IDs.
    pub fn set_ids(&mut self, caller: u64, ids: [u32; 3]) {
        for kind in [Kind::Group, Kind::User] {
            self.make(Call::SetIds { kind, caller, ids });
        }
    }

    /// Makes a namespace with both maps of this text, and answers its process.
    pub fn child_with_maps(&mut self, caller: u64, text: &str) -> u64 {
        let (process, _) = self.clone_process(caller);
        for kind in [Kind::User, Kind::Group] {
            let text = text.as_bytes().to_vec();
            self.make(Call::WriteMap { kind, caller, process, text });
        }
        process
    }

    /// Makes a namespace with both maps of this text, and its process the root of it.
    fn root_with_maps(&mut self, caller: u64, text: &str) -> u64 {
        let process = self.child_with_maps(caller, text);
        self.set_ids(process, [0; 3]);
        process
    }

    /// The common state: 16 namespaces at level 1 with maps of one line; in each a root, processes 2 to 17, with four
    /// supplementary groups, and a fork of it.
    pub fn common() -> State {
        let mut state = State::initial();
        for index in 1..=NAMESPACES {
            let text = ONE_LINE.replace("100000", &(index * 100_000).to_string());
            let process = state.root_with_maps(1, &text);
            state.make(Call::Setgroups { caller: process, groups: (10..14).collect() });
        }
        for process in 2..=NAMESPACES + 1 {
            state.fork(process);
        }
        state
    }

    /// Namespaces one below the other, each with both maps of the text for its level; the process at each level has the
    /// number one above it.
    fn nested(levels: u64, text: impl Fn(u64) -> String) -> State {
        let mut state = State::initial();
        for level in 1..=levels {
            state.root_with_maps(level, &text(level));
        }
        state
    }

    /// Namespaces one below the other with maps of five lines. The deepest one's process has sixteen supplementary
    /// groups.
    pub fn deep(levels: u64) -> State {
        let text = |level| if level == 1 { FIVE_LINES } else { FIVE_BELOW };
        let mut state = State::nested(levels, |level| text(level).to_string());
        state.make(Call::Setgroups { caller: levels + 1, groups: sixteen_groups() });
        state
    }

    /// The same state with three different IDs of each kind for a process, all in the last of five lines.
    pub fn with_own_ids(mut self, caller: u64) -> State {
        self.set_ids(caller, [LAST_LINE_ID, LAST_LINE_ID + 1, LAST_LINE_ID + 2]);
        self
    }

    /// Namespaces one below the other with the worst maps. Process 1, which is outside, and the deepest one's process
    /// have sixteen supplementary groups, three different IDs of each kind, all in the last line, and both sets full.
    pub fn worst(levels: u64) -> State {
        let mut state = State::nested(levels, worst_map);
        for caller in [1, levels + 1] {
            state.make(Call::Setgroups { caller, groups: sixteen_groups() });
            state.set_ids(caller, worst_ids(0));
            // The effective set goes with the effective ID 0, and the permitted set stays.
            state.make(Call::Capset { caller, permitted: FULL, effective: FULL });
        }
        state
    }

    /// The same state with forks of a process in all places but so many, which are the last ones.
    pub fn with_places_left(mut self, left: u64, caller: u64) -> State {
        while self.fork(caller) < PROCESSES - left {}
        self
    }
}

/// The map at a level of the worst states: four lines of one ID each, and a last one of the IDs from 0 on. Each line
/// lies in the last line of the map above.
fn worst_map(level: u64) -> String {
    let line = |index| format!("{} {index} 1\n", NO_ID - 4 + index);
    let first: String = (0..4).map(line).collect();
    format!("{first}0 4 {}\n", NO_ID - 4 * level as u32)
}

/// Three different IDs in the last line of a worst map, the first two of them exchanged at each call. By ID 0 a process
/// keeps its permitted set.
pub fn worst_ids(index: usize) -> [u32; 3] {
    let other = index as u32 % 2;
    [LAST_LINE_ID + other, LAST_LINE_ID + 1 - other, 0]
}

/// The kernel ID of an ID through maps of five lines, at any level.
pub fn kernel_id(inside: u32) -> u32 {
    100_000 + inside / 1000 * 2000 + inside % 1000
}

/// Sixteen groups of the last of five lines.
pub fn sixteen_groups() -> Vec<u32> {
    (LAST_LINE_ID..LAST_LINE_ID + MAX_GROUPS).collect()
}
