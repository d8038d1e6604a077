//! Capability numbers and capability sets.

/// "Capability numbers: SETGID 6, SETUID 7, SYS_ADMIN 21."
pub const SETGID: u32 = 6;
pub const SETUID: u32 = 7;
pub const SYS_ADMIN: u32 = 21;
/// The highest capability number.
pub const LAST: u32 = 36;

/// A set of capabilities; bit N stands for capability N.
#[derive(Clone, Copy, PartialEq, Eq, Debug)]
pub struct CapabilitySet(pub u64);

impl CapabilitySet {
    /// "the full set of capabilities is 0 to 36, written 0000001fffffffff"
    pub const FULL: CapabilitySet = CapabilitySet(0x0000_001f_ffff_ffff);
    pub const EMPTY: CapabilitySet = CapabilitySet(0);

    pub fn has(self, number: u32) -> bool {
        number <= LAST && (self.0 >> number) & 1 == 1
    }

    pub fn is_part_of(self, other: CapabilitySet) -> bool {
        self.0 & !other.0 == 0
    }
}
