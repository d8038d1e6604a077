//! The call bytes. The choice of a map and of the way that a translation goes lies in them.

use crate::{Kind, Way};

pub const FORK: u8 = 0x10;
pub const CLONE: u8 = 0x11;
pub const UNSHARE: u8 = 0x14;
pub const SETNS: u8 = 0x17;
pub const WRITE_UID_MAP: u8 = 0x20;
pub const WRITE_GID_MAP: u8 = 0x21;
pub const WRITE_SETGROUPS: u8 = 0x22;
pub const READ_UID_MAP: u8 = 0x23;
pub const READ_GID_MAP: u8 = 0x24;
pub const READ_SETGROUPS: u8 = 0x25;
pub const SETRESUID: u8 = 0x30;
pub const SETRESGID: u8 = 0x31;
pub const SETGROUPS: u8 = 0x32;
pub const CAPSET: u8 = 0x33;
pub const GETIDS: u8 = 0x34;
pub const CAPABLE: u8 = 0x40;
pub const TRANSLATE_UID_OUT: u8 = 0x41;
pub const TRANSLATE_UID_BACK: u8 = 0x42;
pub const TRANSLATE_GID_OUT: u8 = 0x43;
pub const TRANSLATE_GID_BACK: u8 = 0x44;

pub fn write_map(kind: Kind) -> u8 {
    match kind {
        Kind::User => WRITE_UID_MAP,
        Kind::Group => WRITE_GID_MAP,
    }
}

pub fn read_map(kind: Kind) -> u8 {
    match kind {
        Kind::User => READ_UID_MAP,
        Kind::Group => READ_GID_MAP,
    }
}

pub fn set_ids(kind: Kind) -> u8 {
    match kind {
        Kind::User => SETRESUID,
        Kind::Group => SETRESGID,
    }
}

pub fn translate(kind: Kind, way: Way) -> u8 {
    match (kind, way) {
        (Kind::User, Way::Out) => TRANSLATE_UID_OUT,
        (Kind::User, Way::Back) => TRANSLATE_UID_BACK,
        (Kind::Group, Way::Out) => TRANSLATE_GID_OUT,
        (Kind::Group, Way::Back) => TRANSLATE_GID_BACK,
    }
}
