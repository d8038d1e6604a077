//! A user namespace: its place in the tree, its owner, its two maps and its setgroups setting.

use crate::id_map::{IdMap, Kind};
use crate::process::KernelId;

#[derive(Clone, Copy, PartialEq, Eq, Debug)]
pub enum SetgroupsSetting {
    Allow,
    Deny,
}

#[derive(Clone, PartialEq, Eq, Debug)]
pub struct Namespace {
    /// None for namespace 0 alone.
    pub parent: Option<u64>,
    pub level: u32,
    /// The creator's effective user ID; no rule asks for that of namespace 0.
    pub owner: KernelId,
    pub user_map: IdMap,
    pub group_map: IdMap,
    pub setgroups: SetgroupsSetting,
}

impl Namespace {
    pub fn initial() -> Namespace {
        Namespace {
            parent: None,
            level: 0,
            owner: KernelId(0),
            user_map: IdMap::initial(),
            group_map: IdMap::initial(),
            setgroups: SetgroupsSetting::Allow,
        }
    }

    pub fn map(&self, kind: Kind) -> &IdMap {
        match kind {
            Kind::User => &self.user_map,
            Kind::Group => &self.group_map,
        }
    }

    pub fn map_mut(&mut self, kind: Kind) -> &mut IdMap {
        match kind {
            Kind::User => &mut self.user_map,
            Kind::Group => &mut self.group_map,
        }
    }
}
