//! Random journals, good ones and damaged ones, and scripts to be recorded.

use super::Generator;
use crate::call::Call;
use crate::id_map::Kind;
use crate::journal::{self, Entry, MAX_IDS, MAX_TEXT};
use crate::random::Random;
use crate::script::{self, Item, MAX_LINE};

const LENGTHS: [u64; 10] = [1, 10, 60, 100, 200, 200, 300, 400, 400, 1_000];
/// The length of a list now and then.
const LONG_LIST: u64 = 10_000;
/// Lengths of a read's buffer around those of the texts, and at the bounds of one to four bytes.
const BUFFER_LENGTHS: [u64; 20] = [
    0,
    5,
    6,
    32,
    33,
    66,
    164,
    165,
    166,
    255,
    256,
    65_535,
    65_536,
    65_537,
    (1 << 24) - 1,
    1 << 24,
    1 << 31,
    (1 << 31) + 33,
    (1 << 32) - 2,
    (1 << 32) - 1,
];

/// Writes one journal or script after another.
pub struct Journals {
    generator: Generator,
    pub(super) random: Random,
    lists: u64,
}

impl Journals {
    pub fn new(seed: u64) -> Journals {
        Journals { generator: Generator::new(seed, true), random: Random::new(!seed), lists: 0 }
    }

    /// A journal; most are damaged in one place or more.
    pub fn journal(&mut self) -> Vec<u8> {
        let journal = self.good_journal();
        if self.random.chance(60) {
            self.damage(&journal)
        } else {
            journal
        }
    }

    /// A journal that ends well.
    pub fn good_journal(&mut self) -> Vec<u8> {
        journal::journal(&self.entries()).expect("a record can hold each of these calls")
    }

    /// A journal of the calls of a script and `length` random ones after them, with every answer of
    /// every call if it is long enough.
    pub fn long_journal(&mut self, script: &[u8], length: u64) -> Vec<u8> {
        let start = calls(script);
        let list = self.generator.long_list(&start, length);
        let mut entries: Vec<Entry> = start.into_iter().map(Entry::of).collect();
        entries.extend(self.entries_of(&list));
        journal::journal(&entries).expect("a record can hold each of these calls")
    }

    /// A list of calls.
    pub fn entries(&mut self) -> Vec<Entry> {
        let list = self.list();
        let mut entries = self.entries_of(&list);
        if self.random.chance(5) {
            let place = self.random.index(entries.len() + 1);
            let call = self.long_call();
            entries.insert(place, Entry::of(call));
        }
        entries
    }

    /// A script that is recorded to its end, or up to a malformed line or a `fresh`.
    pub fn script(&mut self) -> Vec<u8> {
        let list = self.list();
        let long = self.long_line();
        // The first line is `fresh`.
        let mut lines: Vec<&[u8]> = lines(&list).skip(1).collect();
        if self.random.chance(70) {
            lines.retain(|line| !matches!(script::parse(line), Item::Malformed(_)));
        }
        if self.random.chance(5) {
            let place = self.random.index(lines.len() + 1);
            lines.insert(place, &long);
        }
        if self.random.chance(10) {
            let place = self.random.index(lines.len() + 1);
            lines.insert(place, b"fresh");
        }
        let mut script = lines.join(&b'\n');
        if self.random.chance(70) {
            script.push(b'\n');
        }
        script
    }

    fn entries_of(&mut self, script: &[u8]) -> Vec<Entry> {
        calls(script).into_iter().map(|call| self.with_other_buffer(Entry::of(call))).collect()
    }

    /// The script of a list of calls.
    fn list(&mut self) -> Vec<u8> {
        let length = if self.random.chance(1) { LONG_LIST } else { self.random.pick(&LENGTHS) };
        self.lists += 1;
        self.generator.list(self.lists, length)
    }

    /// Now and then a buffer of another length, which may be longer than a script's.
    fn with_other_buffer(&mut self, entry: Entry) -> Entry {
        if entry.is_read() && self.random.chance(30) {
            entry.lending(self.random.pick(&BUFFER_LENGTHS))
        } else {
            entry
        }
    }

    /// A call whose record is longer than those that a script can have, or as long.
    fn long_call(&mut self) -> Call {
        let caller = 1;
        let process = self.random.below(4);
        match self.random.below(4) {
            0 => {
                let text = self.long_text();
                Call::WriteMap { kind: Kind::User, caller, process, text }
            }
            1 => {
                let text = self.long_text();
                Call::WriteMap { kind: Kind::Group, caller, process, text }
            }
            2 => Call::WriteSetgroups { caller, process, text: self.long_text() },
            _ => Call::Setgroups { caller, groups: vec![5; self.long_length(MAX_IDS)] },
        }
    }

    /// The line of a write with a text that is as long as a line can hold, or shorter.
    fn long_line(&mut self) -> Vec<u8> {
        let start = self.random.pick(&[&b"write-uid-map 1 2 \""[..], b"write-setgroups 1 1 \""]);
        let text = vec![b'0'; self.long_length(MAX_LINE - start.len() - 1)];
        [start, &text, b"\""].concat()
    }

    fn long_text(&mut self) -> Vec<u8> {
        let start = self.random.pick(&[&b"0 0 1"[..], b"deny", b"allow\n", b""]);
        let filler = self.random.pick(b" \n0\x00\xff");
        let mut text = start.to_vec();
        text.resize(self.long_length(MAX_TEXT), filler);
        text
    }

    fn long_length(&mut self, most: usize) -> usize {
        match self.random.below(3) {
            0 => most,
            1 => most - 1,
            _ => 1 + self.random.index(most),
        }
    }
}

/// The calls of a script, without what else it has.
fn calls(script: &[u8]) -> Vec<Call> {
    let call = |line| match script::parse(line) {
        Item::Call(call) => Some(call),
        _ => None,
    };
    lines(script).filter_map(call).collect()
}

/// The lines of a script that ends in a newline.
fn lines(script: &[u8]) -> impl Iterator<Item = &[u8]> {
    script.strip_suffix(b"\n").unwrap_or(script).split(|byte| *byte == b'\n')
}
