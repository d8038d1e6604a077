//! Lists of supplementary groups.

use std::fmt;
use std::hash::{Hash, Hasher};
use std::ops::Deref;

/// The most supplementary groups of a process.
pub(crate) const MAX_GROUPS: usize = 16;

/// The supplementary groups of a process, at most sixteen, in order. It is used as the slice of them.
///
/// ```
/// let mut tables = oarhatchet::Tables::new();
/// tables.setgroups(1, &[7, 3])?;
/// let groups = tables.getids(1)?.supplementary;
/// assert_eq!(groups, [7, 3]);
/// assert!(groups.contains(&3));
/// # Ok::<(), oarhatchet::Errno>(())
/// ```
#[derive(Clone, Copy)]
pub struct Groups {
    count: usize,
    places: [u32; MAX_GROUPS],
}

impl Groups {
    /// The first of the places.
    pub(crate) fn first(count: usize, places: [u32; MAX_GROUPS]) -> Groups {
        Groups { count, places }
    }
}

impl Deref for Groups {
    type Target = [u32];

    fn deref(&self) -> &[u32] {
        &self.places[..self.count.min(MAX_GROUPS)]
    }
}

impl fmt::Debug for Groups {
    fn fmt(&self, formatter: &mut fmt::Formatter<'_>) -> fmt::Result {
        (**self).fmt(formatter)
    }
}

impl PartialEq for Groups {
    fn eq(&self, other: &Groups) -> bool {
        **self == **other
    }
}

impl Eq for Groups {}

impl<const N: usize> PartialEq<[u32; N]> for Groups {
    fn eq(&self, other: &[u32; N]) -> bool {
        **self == *other
    }
}

impl Hash for Groups {
    fn hash<H: Hasher>(&self, state: &mut H) {
        (**self).hash(state);
    }
}
