//! Damaged journals.

use super::Journals;
use crate::journal;

/// Bytes that no call has; most of them are kept for calls to come.
const UNKNOWN_CALLS: [u8; 16] = [
    0x00, 0x01, 0x0f, 0x12, 0x13, 0x15, 0x16, 0x18, 0x19, 0x1c, 0x26, 0x27, 0x35, 0x45, 0x47, 0xff,
];
const CALLS: [u8; 20] = [
    0x10, 0x11, 0x14, 0x17, 0x20, 0x21, 0x22, 0x23, 0x24, 0x25, 0x30, 0x31, 0x32, 0x33, 0x34, 0x40,
    0x41, 0x42, 0x43, 0x44,
];
/// The lengths of records without a tail, and the lengths beside them.
const LENGTHS: [usize; 16] = [0, 1, 2, 8, 9, 10, 13, 16, 17, 18, 20, 21, 22, 24, 25, 26];
/// Versions that are none, and one that comes twice.
const VERSIONS: [&[u8]; 5] = [b"", b"\x00", b"\x02", b"\xff", b"\x01\x01"];

impl Journals {
    /// A good journal with up to three damaged parts, and often with a damaged place after that.
    pub(super) fn damage(&mut self, journal: &[u8]) -> Vec<u8> {
        let parts = journal::parts(journal);
        let mut parts: Vec<Vec<u8>> = parts.into_iter().map(<[u8]>::to_vec).collect();
        for _ in 0..self.random.index(4) {
            self.damage_parts(&mut parts);
        }
        let mut bytes = parts.concat();
        if self.random.chance(40) {
            self.damage_bytes(&mut bytes);
        }
        bytes
    }

    /// Another version, a record more or a damaged record.
    fn damage_parts(&mut self, parts: &mut Vec<Vec<u8>>) {
        let place = 1 + self.random.index(parts.len());
        if self.random.chance(5) {
            parts[0] = self.random.pick(&VERSIONS).to_vec();
        } else if place == parts.len() || self.random.chance(30) {
            let record = self.other_record();
            parts.insert(place, record);
        } else {
            self.damage_record(&mut parts[place]);
        }
    }

    /// A record of length 0, one of random arguments, or bytes that are likely no record.
    fn other_record(&mut self) -> Vec<u8> {
        if self.random.chance(10) {
            let length = self.random.index(100);
            return self.bytes(length);
        }
        let length = match self.random.below(4) {
            0 => self.random.index(60),
            _ => self.random.pick(&LENGTHS),
        };
        let mut body = self.bytes(length);
        if let Some(byte) = body.first_mut() {
            *byte = self.call_byte();
        }
        journal::framed(&body)
    }

    fn damage_record(&mut self, record: &mut Vec<u8>) {
        let Some((length, body)) = record.split_first_chunk_mut() else {
            return;
        };
        match self.random.below(8) {
            0 => *length = u16::from_be_bytes(*length).wrapping_add(1).to_be_bytes(),
            1 => *length = u16::from_be_bytes(*length).wrapping_sub(1).to_be_bytes(),
            2 => *length = (self.random.next() as u16).to_be_bytes(),
            3 | 4 if !body.is_empty() => body[0] = self.call_byte(),
            5 if body.len() > 1 => {
                let arguments = self.bytes(body.len() - 1);
                body[1..].copy_from_slice(&arguments);
            }
            6 => {
                let kept = self.random.index(body.len() + 1);
                *record = journal::framed(&body[..kept]);
            }
            _ => {
                let more = self.random.pick(&[1, 2, 3, 4, 8, 50]);
                let longer = [&body[..], &self.bytes(more)].concat();
                *record = journal::framed(&longer[..longer.len().min(journal::MAX_LENGTH)]);
            }
        }
    }

    /// Any byte, mostly one of a call.
    fn call_byte(&mut self) -> u8 {
        match self.random.below(6) {
            0 => self.random.next() as u8,
            1 => self.random.pick(&UNKNOWN_CALLS),
            _ => self.random.pick(&CALLS),
        }
    }

    /// Changes, removes or adds bytes at a random place.
    fn damage_bytes(&mut self, bytes: &mut Vec<u8>) {
        let place = self.random.index(bytes.len() + 1);
        match self.random.below(12) {
            0..=2 if place < bytes.len() => bytes[place] = self.random.next() as u8,
            3 | 4 if place < bytes.len() => {
                bytes.remove(place);
            }
            5 | 6 => bytes.insert(place, self.random.next() as u8),
            7 | 8 => bytes.truncate(place),
            9 | 10 => {
                let length = self.random.index(200);
                bytes.truncate(place);
                bytes.extend(self.bytes(length));
            }
            _ => bytes.truncate(self.random.index(5)),
        }
    }

    fn bytes(&mut self, length: usize) -> Vec<u8> {
        (0..length).map(|_| self.random.next() as u8).collect()
    }
}
