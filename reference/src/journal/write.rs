//! Writes calls as records.

use super::{Entry, VERSION};
use crate::answer::Errno;
use crate::call::{Call, Direction};
use crate::id_map::Kind;

/// "the length is at most 65,535"
pub const MAX_LENGTH: usize = 65_535;
/// "A text has at most 65,518 bytes"
pub const MAX_TEXT: usize = 65_518;
/// "and a list at most 16,381 IDs"
pub const MAX_IDS: usize = 16_381;

/// Writes the record of a call into a lent buffer from `place` on, and answers where it ends. A
/// call that no record can hold is refused with 22, then a buffer without room with 34; nothing is
/// written then.
pub fn write(entry: &Entry, buffer: &mut [u8], place: usize) -> Result<usize, Errno> {
    let record = record_of(entry)?;
    let room = buffer.get_mut(place..).and_then(|rest| rest.get_mut(..record.len()));
    room.ok_or(Errno::Erange)?.copy_from_slice(&record);
    Ok(place + record.len())
}

/// The journal of a list of calls, refused with 22 if one of them cannot be written.
pub fn journal(entries: &[Entry]) -> Result<Vec<u8>, Errno> {
    let mut bytes = vec![VERSION];
    for entry in entries {
        bytes.extend(record_of(entry)?);
    }
    Ok(bytes)
}

/// The whole record of a call: "22 if the length would pass 65,535, or if it is a read whose
/// buffer's length needs over four bytes".
pub(super) fn record_of(entry: &Entry) -> Result<Vec<u8>, Errno> {
    let lent = u32::try_from(entry.lent).map_err(|_| Errno::Einval)?;
    let mut body = vec![call_byte(&entry.call)];
    body.extend(arguments(&entry.call, lent));
    if body.len() > MAX_LENGTH {
        return Err(Errno::Einval);
    }
    Ok(framed(&body))
}

/// A body of at most 65,535 bytes with its length before it.
pub(crate) fn framed(body: &[u8]) -> Vec<u8> {
    [&(body.len() as u16).to_be_bytes()[..], body].concat()
}

fn call_byte(call: &Call) -> u8 {
    use Direction::{Back, Out};
    use Kind::{Group, User};
    match call {
        Call::Fork { .. } => 0x10,
        Call::Clone { .. } => 0x11,
        Call::Unshare { .. } => 0x14,
        Call::Setns { .. } => 0x17,
        Call::WriteMap { kind: User, .. } => 0x20,
        Call::WriteMap { kind: Group, .. } => 0x21,
        Call::WriteSetgroups { .. } => 0x22,
        Call::ReadMap { kind: User, .. } => 0x23,
        Call::ReadMap { kind: Group, .. } => 0x24,
        Call::ReadSetgroups { .. } => 0x25,
        Call::SetIds { kind: User, .. } => 0x30,
        Call::SetIds { kind: Group, .. } => 0x31,
        Call::Setgroups { .. } => 0x32,
        Call::Capset { .. } => 0x33,
        Call::GetIds { .. } => 0x34,
        Call::Capable { .. } => 0x40,
        Call::Translate { kind, direction, .. } => match (kind, direction) {
            (User, Out) => 0x41,
            (User, Back) => 0x42,
            (Group, Out) => 0x43,
            (Group, Back) => 0x44,
        },
    }
}

/// The caller, the other arguments and the tail; `lent` is the length of a read's buffer.
fn arguments(call: &Call, lent: u32) -> Vec<u8> {
    match call {
        Call::Fork { caller }
        | Call::Clone { caller }
        | Call::Unshare { caller }
        | Call::GetIds { caller } => eights(&[*caller]),
        Call::Setns { caller, namespace } => eights(&[*caller, *namespace]),
        Call::WriteMap { caller, process, text, .. }
        | Call::WriteSetgroups { caller, process, text } => {
            [&eights(&[*caller, *process])[..], text].concat()
        }
        Call::ReadMap { caller, process, .. } | Call::ReadSetgroups { caller, process, .. } => {
            [eights(&[*caller, *process]), fours(&[lent])].concat()
        }
        Call::SetIds { caller, ids, .. } => [eights(&[*caller]), fours(ids)].concat(),
        Call::Setgroups { caller, groups } => [eights(&[*caller]), fours(groups)].concat(),
        Call::Capset { caller, permitted, effective } => eights(&[*caller, *permitted, *effective]),
        Call::Capable { caller, namespace, number } => {
            [eights(&[*caller, *namespace]), fours(&[*number])].concat()
        }
        Call::Translate { caller, namespace, id, .. } => {
            [eights(&[*caller, *namespace]), fours(&[*id])].concat()
        }
    }
}

/// Numbers of eight bytes each.
fn eights(numbers: &[u64]) -> Vec<u8> {
    numbers.iter().flat_map(|number| number.to_be_bytes()).collect()
}

/// Numbers of four bytes each.
fn fours(numbers: &[u32]) -> Vec<u8> {
    numbers.iter().flat_map(|number| number.to_be_bytes()).collect()
}
