//! The calls as the archive exports them. All the unsafe code is here.
//!
//! The declarations are those of `bindings/c/oarhatchet.h`. A function that takes references to single arrays and
//! numbers alone asks nothing more of its caller, so it is declared safe. A slice crosses as its pointer and its
//! length, so the functions that take one are unsafe here, and a safe function stands above each.
//!
//! The archive's code has no state of its own, keeps no pointer and writes nothing behind a pointer to const.
//! References and slices are never null, and the borrow checker keeps what is lent to one call from overlapping.
#![allow(unsafe_code)]

use crate::groups::MAX_GROUPS;

/// The words of the tables.
pub const WORDS: usize = 6592;
pub type Words = [u64; WORDS];

/// What the own-ID question writes: six IDs, and a place for each group.
pub const IDS: usize = 6 + MAX_GROUPS;

/// The bytes of the longest record of a journal, the most IDs of one, and the bytes of the longest text of a read.
pub const MAX_RECORD: usize = 65537;
pub const MAX_IDS: usize = 16381;
pub const MAX_READ: usize = 165;

/// The words that tell what stands at an offset of a journal, and their places: what it is, the names and the other
/// numbers of a call, where these end and its text starts, the bytes of that, the IDs of its list, an offset, and the
/// namespace that it made.
pub const RECORD_WORDS: usize = 12;
pub const WORD_CALL: usize = 0;
pub const WORD_NAMES: usize = 1;
pub const WORD_NUMBERS: usize = 4;
pub const WORD_TAIL: usize = 7;
pub const WORD_TEXT: usize = 8;
pub const WORD_IDS: usize = 9;
pub const WORD_NEXT: usize = 10;
pub const WORD_NAMESPACE: usize = 11;

/// A call's record, before it is bytes: what the call does not have is not looked at.
#[derive(Clone, Copy)]
pub struct Arguments<'a> {
    pub call: u8,
    pub names: [u64; 3],
    pub numbers: [u32; 3],
    pub text: &'a [u8],
    pub list: &'a [u32],
    pub length: u64,
}

/// What the replay of a record writes beside the tables.
pub struct Found {
    pub record: [u64; RECORD_WORDS],
    pub list: Box<[u32; MAX_IDS]>,
    pub buffer: [u8; MAX_READ],
    pub ids: [u32; IDS],
}

unsafe extern "C" {
    pub safe fn oarhatchet_words() -> u64;
    pub safe fn oarhatchet_initial(tables: &mut Words);
    pub safe fn oarhatchet_fork(tables: &mut Words, caller: u64) -> i64;
    pub safe fn oarhatchet_clone(tables: &mut Words, caller: u64, new_namespace: &mut u64) -> i64;
    pub safe fn oarhatchet_unshare(tables: &mut Words, caller: u64) -> i64;
    pub safe fn oarhatchet_setns(tables: &mut Words, caller: u64, target: u64) -> i64;
    pub safe fn oarhatchet_setresuid(
        tables: &mut Words,
        caller: u64,
        real: u32,
        effective: u32,
        saved: u32,
    ) -> i64;
    pub safe fn oarhatchet_setresgid(
        tables: &mut Words,
        caller: u64,
        real: u32,
        effective: u32,
        saved: u32,
    ) -> i64;
    pub safe fn oarhatchet_capable(tables: &Words, caller: u64, target: u64, number: u32) -> i64;
    pub safe fn oarhatchet_capset(
        tables: &mut Words,
        caller: u64,
        permitted: u64,
        effective: u64,
    ) -> i64;
    pub safe fn oarhatchet_getids(tables: &Words, caller: u64, ids: &mut [u32; IDS]) -> i64;
    pub safe fn oarhatchet_translate_uid_out(
        tables: &Words,
        caller: u64,
        target: u64,
        id: u32,
    ) -> i64;
    pub safe fn oarhatchet_translate_uid_back(
        tables: &Words,
        caller: u64,
        target: u64,
        id: u32,
    ) -> i64;
    pub safe fn oarhatchet_translate_gid_out(
        tables: &Words,
        caller: u64,
        target: u64,
        id: u32,
    ) -> i64;
    pub safe fn oarhatchet_translate_gid_back(
        tables: &Words,
        caller: u64,
        target: u64,
        id: u32,
    ) -> i64;

    fn oarhatchet_write_uid_map(
        tables: &mut Words,
        caller: u64,
        process: u64,
        text: *const u8,
        length: usize,
    ) -> i64;
    fn oarhatchet_write_gid_map(
        tables: &mut Words,
        caller: u64,
        process: u64,
        text: *const u8,
        length: usize,
    ) -> i64;
    fn oarhatchet_write_setgroups(
        tables: &mut Words,
        caller: u64,
        process: u64,
        text: *const u8,
        length: usize,
    ) -> i64;
    fn oarhatchet_read_uid_map(
        tables: &Words,
        caller: u64,
        process: u64,
        buffer: *mut u8,
        length: usize,
    ) -> i64;
    fn oarhatchet_read_gid_map(
        tables: &Words,
        caller: u64,
        process: u64,
        buffer: *mut u8,
        length: usize,
    ) -> i64;
    fn oarhatchet_read_setgroups(
        tables: &Words,
        caller: u64,
        process: u64,
        buffer: *mut u8,
        length: usize,
    ) -> i64;
    fn oarhatchet_setgroups(tables: &mut Words, caller: u64, list: *const u32, count: usize)
        -> i64;

    fn oarhatchet_write_record(
        call: u8,
        names: &[u64; 3],
        numbers: &[u32; 3],
        text: *const u8,
        text_length: usize,
        list: *const u32,
        count: usize,
        length: u64,
        buffer: *mut u8,
        buffer_length: usize,
        at: usize,
    ) -> i64;
    fn oarhatchet_replay(
        tables: &mut Words,
        journal: *const u8,
        length: usize,
        at: usize,
        record: &mut [u64; RECORD_WORDS],
        list: &mut [u32; MAX_IDS],
        buffer: &mut [u8; MAX_READ],
        ids: &mut [u32; IDS],
    ) -> i64;
}

/// A call that is lent a text.
type Write = unsafe extern "C" fn(&mut Words, u64, u64, *const u8, usize) -> i64;
/// A call that is lent a buffer.
type Read = unsafe extern "C" fn(&Words, u64, u64, *mut u8, usize) -> i64;

fn write(call: Write, tables: &mut Words, caller: u64, process: u64, text: &[u8]) -> i64 {
    // SAFETY: the pointer is valid for reads of the length, and nothing else borrows the tables.
    unsafe { call(tables, caller, process, text.as_ptr(), text.len()) }
}

fn read(call: Read, tables: &Words, caller: u64, process: u64, buffer: &mut [u8]) -> i64 {
    // SAFETY: the pointer is valid for reads and writes of the length, and the buffer is apart from the tables.
    unsafe { call(tables, caller, process, buffer.as_mut_ptr(), buffer.len()) }
}

pub fn write_uid_map(tables: &mut Words, caller: u64, process: u64, text: &[u8]) -> i64 {
    write(oarhatchet_write_uid_map, tables, caller, process, text)
}

pub fn write_gid_map(tables: &mut Words, caller: u64, process: u64, text: &[u8]) -> i64 {
    write(oarhatchet_write_gid_map, tables, caller, process, text)
}

pub fn write_setgroups(tables: &mut Words, caller: u64, process: u64, text: &[u8]) -> i64 {
    write(oarhatchet_write_setgroups, tables, caller, process, text)
}

pub fn read_uid_map(tables: &Words, caller: u64, process: u64, buffer: &mut [u8]) -> i64 {
    read(oarhatchet_read_uid_map, tables, caller, process, buffer)
}

pub fn read_gid_map(tables: &Words, caller: u64, process: u64, buffer: &mut [u8]) -> i64 {
    read(oarhatchet_read_gid_map, tables, caller, process, buffer)
}

pub fn read_setgroups(tables: &Words, caller: u64, process: u64, buffer: &mut [u8]) -> i64 {
    read(oarhatchet_read_setgroups, tables, caller, process, buffer)
}

pub fn setgroups(tables: &mut Words, caller: u64, list: &[u32]) -> i64 {
    // SAFETY: the pointer is valid for reads of the count, and nothing else borrows the tables.
    unsafe { oarhatchet_setgroups(tables, caller, list.as_ptr(), list.len()) }
}

/// Writes a record to the front of the buffer.
pub fn write_record(record: &Arguments<'_>, buffer: &mut [u8]) -> i64 {
    // SAFETY: each pointer is valid for its length, the buffer's for writes too, and the buffer is apart from the rest.
    unsafe {
        oarhatchet_write_record(
            record.call,
            &record.names,
            &record.numbers,
            record.text.as_ptr(),
            record.text.len(),
            record.list.as_ptr(),
            record.list.len(),
            record.length,
            buffer.as_mut_ptr(),
            buffer.len(),
            0,
        )
    }
}

/// Makes the call of the record at an offset of a journal.
pub fn replay(tables: &mut Words, journal: &[u8], at: usize, found: &mut Found) -> i64 {
    // SAFETY: the pointer is valid for reads of the length, and nothing else borrows the tables and what is found.
    unsafe {
        oarhatchet_replay(
            tables,
            journal.as_ptr(),
            journal.len(),
            at,
            &mut found.record,
            &mut found.list,
            &mut found.buffer,
            &mut found.ids,
        )
    }
}
