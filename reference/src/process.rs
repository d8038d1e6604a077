//! A process: its namespace, its IDs and its capability sets.

use crate::capability::CapabilitySet;
use crate::id_map::Kind;

/// An ID of the initial namespace (document 01: a station-wide ID).
#[derive(Clone, Copy, PartialEq, Eq, Debug)]
pub struct KernelId(pub u32);

/// A process's three IDs of one kind.
#[derive(Clone, Copy, PartialEq, Eq, Debug)]
pub struct Ids {
    pub real: KernelId,
    pub effective: KernelId,
    pub saved: KernelId,
}

impl Ids {
    pub fn all(id: KernelId) -> Ids {
        Ids { real: id, effective: id, saved: id }
    }

    pub fn list(&self) -> [KernelId; 3] {
        [self.real, self.effective, self.saved]
    }

    pub fn contain(&self, id: KernelId) -> bool {
        self.list().contains(&id)
    }
}

#[derive(Clone, PartialEq, Eq, Debug)]
pub struct Process {
    pub namespace: u64,
    pub user: Ids,
    pub group: Ids,
    pub groups: Vec<KernelId>,
    pub permitted: CapabilitySet,
    pub effective: CapabilitySet,
}

impl Process {
    /// "process 1 in namespace 0, all IDs 0, no supplementary groups, both sets full"
    pub fn initial() -> Process {
        Process {
            namespace: 0,
            user: Ids::all(KernelId(0)),
            group: Ids::all(KernelId(0)),
            groups: Vec::new(),
            permitted: CapabilitySet::FULL,
            effective: CapabilitySet::FULL,
        }
    }

    pub fn ids(&self, kind: Kind) -> &Ids {
        match kind {
            Kind::User => &self.user,
            Kind::Group => &self.group,
        }
    }

    pub fn ids_mut(&mut self, kind: Kind) -> &mut Ids {
        match kind {
            Kind::User => &mut self.user,
            Kind::Group => &mut self.group,
        }
    }

    /// Makes the process a member of `namespace` with both sets full and its IDs unchanged.
    pub fn enter(&mut self, namespace: u64) {
        self.namespace = namespace;
        self.permitted = CapabilitySet::FULL;
        self.effective = CapabilitySet::FULL;
    }
}
