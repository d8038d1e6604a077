//! Simpler records in the place of records.

use super::shrink::without_chunks;
use crate::journal::{self, VERSION};

/// Where the tail of a call starts if it has one, and the size of each item of it.
fn tail_of(call_byte: u8) -> Option<(usize, usize)> {
    match call_byte {
        0x20..=0x22 => Some((17, 1)),
        0x32 => Some((9, 4)),
        _ => None,
    }
}

/// Records of the same call with a shorter tail or a smaller number, and shorter strings in the
/// place of bytes that are no record; the boldest first.
pub fn simpler(part: &[u8]) -> Vec<Vec<u8>> {
    if !is_record(part) {
        return without_chunks(part);
    }
    let body = &part[2..];
    let (end, size) = tail_of(body[0]).unwrap_or((body.len(), 1));
    let (fixed, tail) = body.split_at(end);
    let items: Vec<&[u8]> = tail.chunks(size).collect();
    let tails = without_chunks(&items);
    let mut bodies: Vec<Vec<u8>> =
        tails.iter().map(|tail| [fixed, &tail.concat()].concat()).collect();
    // Every number of a record is four bytes, or two times four.
    for start in (1..fixed.len()).step_by(4) {
        bodies.extend(smaller_numbers(body, start));
    }
    bodies.iter().map(|body| journal::framed(body)).collect()
}

fn is_record(part: &[u8]) -> bool {
    let journal = [&[VERSION], part].concat();
    matches!(journal::read(&journal), (entries, None) if entries.len() == 1)
}

/// The body with a smaller number in the four bytes from `start` on.
fn smaller_numbers(body: &[u8], start: usize) -> Vec<Vec<u8>> {
    let mut bytes = [0; 4];
    bytes.copy_from_slice(&body[start..start + 4]);
    let number = u32::from_be_bytes(bytes);
    let smaller = [0, 1, 2, number / 2].into_iter().filter(|smaller| *smaller < number);
    smaller
        .map(|smaller| [&body[..start], &smaller.to_be_bytes(), &body[start + 4..]].concat())
        .collect()
}
