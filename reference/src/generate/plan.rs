//! Plans of several calls that build what single calls then meet: users, nested and filled namespaces.

use super::Generator;
use crate::answer::Answer;
use crate::call::Call;
use crate::capability::SETUID;
use crate::id_map::{Kind, Line, NO_ID};
use crate::tables::{MAX_LEVEL, MAX_NAMESPACES, MAX_PROCESSES};

impl Generator {
    /// A few users and namespaces to begin with.
    pub(super) fn settle(&mut self) {
        for _ in 0..2 + self.random.below(3) {
            self.user();
            self.family();
        }
        self.nest();
    }

    pub(super) fn plan(&mut self) {
        match self.random.below(9) {
            0 | 1 => self.family(),
            2 => {
                self.user();
            }
            3 => self.own_map(),
            4 => self.join_and_write(),
            5 => self.step_down_and_up(),
            6 | 7 => self.nest(),
            _ => self.drop_and_ask(),
        }
    }

    pub(super) fn fork_of(&mut self, caller: u64) -> Option<u64> {
        match self.emit(Call::Fork { caller })? {
            Answer::Child(child) => Some(child),
            _ => None,
        }
    }

    fn clone_of(&mut self, caller: u64) -> Option<u64> {
        match self.emit(Call::Clone { caller })? {
            Answer::ChildInNamespace { child, .. } => Some(child),
            _ => None,
        }
    }

    /// A child of process 1 that becomes an unprivileged user.
    fn user(&mut self) -> Option<u64> {
        let child = self.fork_of(1)?;
        if self.random.chance(30) {
            let groups = vec![1000, 1001];
            self.emit(Call::Setgroups { caller: child, groups });
        }
        let id = self.random.pick(&[1000, 1000, 1001]);
        for kind in [Kind::Group, Kind::User] {
            self.emit(Call::SetIds { kind, caller: child, ids: [id; 3] });
        }
        Some(child)
    }

    /// A namespace made by some process, with its maps written by its maker or its member.
    fn family(&mut self) {
        let maker = self.live_process();
        let Some(child) = self.clone_of(maker) else {
            return;
        };
        let writer = self.random.pick(&[maker, maker, child]);
        if writer == child || self.random.chance(20) {
            self.deny(writer, child);
        }
        for kind in [Kind::User, Kind::Group] {
            if self.random.chance(88) {
                let call = self.write_map_call(kind, writer, child);
                self.emit(call);
            }
        }
    }

    /// A namespace with narrow maps, and one below it whose maps are tried at their edges.
    fn nest(&mut self) {
        let other = self.live_process();
        let maker = self.random.pick(&[1, other]);
        let Some(child) = self.clone_of(maker) else {
            return;
        };
        for kind in [Kind::User, Kind::Group] {
            let text = self.narrow_map_text(kind, child);
            self.write_text(kind, maker, child, text);
        }
        let Some(grandchild) = self.clone_of(child) else {
            return;
        };
        for kind in [Kind::User, Kind::Group] {
            for _ in 0..1 + self.random.below(2) {
                let text = self.edge_map_text(kind, grandchild);
                self.write_text(kind, child, grandchild, text);
            }
            let call = self.write_map_call(kind, child, grandchild);
            self.emit(call);
        }
    }

    fn write_text(&mut self, kind: Kind, caller: u64, process: u64, text: Vec<u8>) {
        self.emit(Call::WriteMap { kind, caller, process, text });
    }

    fn deny(&mut self, caller: u64, process: u64) {
        self.emit(Call::WriteSetgroups { caller, process, text: b"deny".to_vec() });
    }

    /// A user that unshares and maps only itself.
    fn own_map(&mut self) {
        let Some(user) = self.user() else { return };
        self.emit(Call::Unshare { caller: user });
        if self.random.chance(60) {
            self.deny(user, user);
        }
        for kind in [Kind::User, Kind::Group] {
            let call = self.write_map_call(kind, user, user);
            self.emit(call);
        }
    }

    /// A process joins a new namespace that another one owns, and writes its map.
    fn join_and_write(&mut self) {
        let Some(user) = self.user() else { return };
        self.emit(Call::Unshare { caller: user });
        let Some(joiner) = self.fork_of(1) else {
            return;
        };
        let namespace = self.process(user).map_or(0, |p| p.namespace);
        self.emit(Call::Setns { caller: joiner, namespace });
        for kind in [Kind::User, Kind::Group] {
            let call = self.write_map_call(kind, joiner, user);
            self.emit(call);
        }
    }

    /// A process drops capabilities, and then asks for what they allow.
    fn drop_and_ask(&mut self) {
        let parent = self.live_process();
        let Some(caller) = self.fork_of(parent) else {
            return;
        };
        let held = self.process(caller).map_or(0, |p| p.permitted.0);
        let permitted = self.part_of(held);
        let effective = self.part_of(permitted);
        self.emit(Call::Capset { caller, permitted, effective });
        let process = self.named_process(caller);
        for kind in [Kind::User, Kind::Group] {
            let call = self.write_map_call(kind, caller, process);
            self.emit(call);
        }
    }

    /// A process leaves ID 0 with its effective user ID alone, and takes it up again.
    fn step_down_and_up(&mut self) {
        let parent = self.live_process();
        let Some(caller) = self.fork_of(parent) else {
            return;
        };
        let home = self.process(caller).map_or(0, |p| p.namespace);
        let other = self.inside_id(Kind::User, home);
        for id in [other, 0] {
            self.emit(Call::SetIds { kind: Kind::User, caller, ids: [NO_ID, id, NO_ID] });
            self.emit(Call::Capable { caller, namespace: home, number: SETUID });
        }
        let held = self.process(caller).map_or(0, |p| p.permitted.0);
        self.emit(Call::Capset { caller, permitted: held, effective: held });
    }

    /// Goes down as quickly as it can, to a namespace at the last level and a call below it.
    pub(super) fn go_deep(&mut self) {
        let mut deepest = 1;
        while let Some(child) = self.clone_of(deepest) {
            self.map_all(deepest, child);
            deepest = child;
        }
        self.emit(Call::Unshare { caller: deepest });
    }

    /// Goes down with other calls between.
    pub(super) fn go_deep_with_noise(&mut self) {
        let mut deepest = 1;
        for _ in 0..MAX_LEVEL {
            let Some(child) = self.clone_of(deepest) else {
                return;
            };
            self.map_all(deepest, child);
            deepest = child;
            let call = self.any_call();
            self.emit(call);
        }
    }

    /// The parent writes both maps of a child, which lose no ID.
    fn map_all(&mut self, parent: u64, child: u64) {
        let home = self.process(parent).map_or(0, |p| p.namespace);
        for kind in [Kind::User, Kind::Group] {
            let above: Vec<Line> = self.tables.namespaces[&home].map(kind).lines().to_vec();
            let lines = self.lines_that_lose_none(&above);
            let text = self.format(&lines);
            self.write_text(kind, parent, child, text);
        }
    }

    /// Makes namespaces until none is free, and tries once more by each way.
    pub(super) fn fill_namespaces(&mut self) {
        while (self.tables.namespaces.len() as u64) < MAX_NAMESPACES && self.left > 0 {
            let maker = if self.random.chance(80) { 1 } else { self.live_process() };
            let child = self.clone_of(maker);
            if self.random.chance(10) {
                if let Some(child) = child {
                    self.map_all(maker, child);
                }
            }
        }
        self.emit(Call::Clone { caller: 1 });
        self.emit(Call::Unshare { caller: 1 });
    }

    /// Makes processes until none is free, and tries once more by each way.
    pub(super) fn fill_processes(&mut self) {
        while (self.tables.processes.len() as u64) < MAX_PROCESSES && self.left > 0 {
            let parent = if self.random.chance(80) { 1 } else { self.live_process() };
            self.fork_of(parent);
        }
        self.emit(Call::Fork { caller: 1 });
        self.emit(Call::Clone { caller: 1 });
    }
}
