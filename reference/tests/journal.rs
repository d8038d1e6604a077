//! The journal: its bytes, what is refused, and where the reading stops.

use std::io::{self, Read};

use reference::generate::Journals;
use reference::journal::{
    journal, output_of, read, replay, write, Entry, Reason, Stop, MAX_IDS, MAX_TEXT,
};
use reference::script::{parse, Item};
use reference::{hex, Call, Errno, Kind};

fn bytes(text: &str) -> Vec<u8> {
    hex::read(text).expect("hexadecimal words")
}

fn entry(line: &str) -> Entry {
    match parse(line.as_bytes()) {
        Item::Call(call) => Entry::of(call),
        other => panic!("{line} is {other:?}"),
    }
}

/// Checks the journal of calls, which ends well, and what its replay prints.
fn check(text: &str, calls: &[&str], printed: &str) {
    let entries: Vec<Entry> = calls.iter().map(|line| entry(line)).collect();
    assert_eq!(journal(&entries), Ok(bytes(text)));
    assert_eq!(read(&bytes(text)), (entries, None));
    assert_eq!(String::from_utf8_lossy(&output_of(&bytes(text)).0), printed);
}

/// The first of the two journals of docs/journal.md.
const FIRST: &str = "
    01
    00 09
    11
    00 00 00 00 00 00 00 01
    00 1b
    20
    00 00 00 00 00 00 00 01
    00 00 00 00 00 00 00 02
    30 20 31 30 30 30 30 20 35 0a
    00 15
    23
    00 00 00 00 00 00 00 01
    00 00 00 00 00 00 00 02
    00 00 00 28
";

/// The second one, up to the record that stops it.
const SECOND: &str = "
    01
    00 11
    32
    00 00 00 00 00 00 00 01
    00 00 00 05
    00 01 11 70
    00 09
    34
    00 00 00 00 00 00 00 01
    00 15
    41
    00 00 00 00 00 00 00 01
    00 00 00 00 00 00 00 00
    00 00 ff ff
";

/// That record.
const LAST_OF_SECOND: &str = "
    00 0a
    10
    00 00 00 00 00 00 00 01
    00
";

#[test]
fn a_clone_a_write_and_a_read() {
    check(
        FIRST,
        &["clone 1", r#"write-uid-map 1 2 "0 10000 5\n""#, "read-uid-map 1 2 40"],
        "child 2 namespace 1\ndone\nlength 33 \"         0      10000          5\\n\"\n",
    );
}

#[test]
fn a_journal_that_stops() {
    let calls = ["setgroups 1 5 70000", "getids 1", "translate-uid-out 1 0 65535"];
    let printed = "done\nuid 0 0 0 gid 0 0 0 groups 5 70000\nid 65535\n";
    check(SECOND, &calls, printed);
    let whole = bytes(&[SECOND, LAST_OF_SECOND].concat());
    let (entries, stop) = read(&whole);
    assert_eq!(entries, calls.map(entry));
    assert_eq!(stop, Some(Stop { offset: 54, reason: Reason::Leftover }));
    let printed = format!("{printed}stopped at 54: leftover bytes\n");
    assert_eq!(String::from_utf8_lossy(&output_of(&whole).0), printed);
}

#[test]
fn every_call_has_its_bytes() {
    let record = |line: &str, text: &str| {
        assert_eq!(journal(&[entry(line)]), Ok(bytes(&format!("01 {text}"))), "{line}");
    };
    record("fork 258", "0009 10 0000000000000102");
    record("clone 1", "0009 11 0000000000000001");
    record("unshare 1", "0009 14 0000000000000001");
    record("setns 1 0xfedcba9876543210", "0011 17 0000000000000001 fedcba9876543210");
    record(r#"write-uid-map 1 2 "0 0 1""#, "0016 20 0000000000000001 0000000000000002 3020302031");
    record(r#"write-gid-map 1 2 """#, "0011 21 0000000000000001 0000000000000002");
    record(r#"write-setgroups 1 2 "deny""#, "0015 22 0000000000000001 0000000000000002 64656e79");
    record("read-uid-map 1 2 33", "0015 23 0000000000000001 0000000000000002 00000021");
    record("read-gid-map 1 2 0", "0015 24 0000000000000001 0000000000000002 00000000");
    record("read-setgroups 1 2 65536", "0015 25 0000000000000001 0000000000000002 00010000");
    record("setresuid 1 2 3 0xfffffffe", "0015 30 0000000000000001 00000002 00000003 fffffffe");
    record("setresgid 1 2 3 4", "0015 31 0000000000000001 00000002 00000003 00000004");
    record("setgroups 1", "0009 32 0000000000000001");
    record("setgroups 1 7 0x01020304", "0011 32 0000000000000001 00000007 01020304");
    record("capset 1 0x1fffffffff 2", "0019 33 0000000000000001 0000001fffffffff 0000000000000002");
    record("getids 1", "0009 34 0000000000000001");
    record("capable 1 2 21", "0015 40 0000000000000001 0000000000000002 00000015");
    record("translate-uid-out 1 2 3", "0015 41 0000000000000001 0000000000000002 00000003");
    record("translate-uid-back 1 2 3", "0015 42 0000000000000001 0000000000000002 00000003");
    record("translate-gid-out 1 2 3", "0015 43 0000000000000001 0000000000000002 00000003");
    record("translate-gid-back 1 2 3", "0015 44 0000000000000001 0000000000000002 00000003");
}

/// A fork by process 1, which ends at 12.
const FORK: &str = "01 0009 10 0000000000000001 ";

#[test]
fn the_reading_stops_at_a_record() {
    let stops = |text: &str, offset, reason, calls| {
        let (entries, stop) = read(&bytes(text));
        assert_eq!(stop, Some(Stop { offset, reason }), "{text}");
        assert_eq!(entries.len(), calls, "{text}");
    };
    for text in ["", "00", "02", "ff", "00 0009 10 0000000000000001", "02 0000"] {
        stops(text, 0, Reason::Version, 0);
    }
    // After a version and after a record.
    for (start, offset, calls) in [("01 ", 1, 0), (FORK, 12, 1)] {
        for (rest, reason) in [
            ("00", Reason::CutOff),
            ("ff", Reason::CutOff),
            ("0001", Reason::CutOff),
            ("0009 10 00000000000000", Reason::CutOff),
            ("0009 ff 00000000000000", Reason::CutOff),
            ("ffff 10 00*65533", Reason::CutOff),
            ("0000", Reason::Short),
            ("0000 0009 10 0000000000000001", Reason::Short),
            ("0001 00", Reason::UnknownCall),
            ("0001 12", Reason::UnknownCall),
            ("0009 18 0000000000000001", Reason::UnknownCall),
            ("0001 10", Reason::Short),
            ("0008 34 00000000000000", Reason::Short),
            ("0010 17 0000000000000001 00000000000000", Reason::Short),
            ("0010 20 0000000000000001 00000000000000", Reason::Short),
            ("0014 23 0000000000000001 0000000000000001 000000", Reason::Short),
            ("0014 30 0000000000000001 00000000 00000000 000000", Reason::Short),
            ("0008 32 00000000000000", Reason::Short),
            ("0018 33 0000000000000001 0000000000000001 00000000000000", Reason::Short),
            ("0014 40 0000000000000001 0000000000000000 000000", Reason::Short),
            ("000a 10 0000000000000001 00", Reason::Leftover),
            ("000a 32 0000000000000001 00", Reason::Leftover),
            ("000f 32 0000000000000001 00000005 0000", Reason::Leftover),
            ("0010 32 0000000000000001 00000005 000000", Reason::Leftover),
            ("0016 44 0000000000000001 0000000000000000 00000000 00", Reason::Leftover),
            ("ffff 25 00*65534", Reason::Leftover),
        ] {
            stops(&format!("{start}{rest}"), offset, reason, calls);
        }
    }
}

#[test]
fn every_other_byte_is_unknown() {
    let calls = [
        0x10, 0x11, 0x14, 0x17, 0x20, 0x21, 0x22, 0x23, 0x24, 0x25, 0x30, 0x31, 0x32, 0x33, 0x34,
        0x40, 0x41, 0x42, 0x43, 0x44,
    ];
    for byte in 0..=255 {
        // Four or eight zeros more are the arguments that some calls have.
        let known = (0..5).any(|count| {
            let body = [vec![byte], vec![0; 8 + 4 * count]].concat();
            let journal = [vec![1, 0, body.len() as u8], body].concat();
            read(&journal).1.is_none()
        });
        assert_eq!(known, calls.contains(&byte), "{byte:02x}");
        let alone = read(&[1, 0, 1, byte]).1.map(|stop| stop.reason);
        let reason = if known { Reason::Short } else { Reason::UnknownCall };
        assert_eq!(alone, Some(reason), "{byte:02x}");
    }
}

#[test]
fn reading_undoes_writing() {
    let mut journals = Journals::new(1);
    for _ in 0..100 {
        let entries = journals.entries();
        let written = journal(&entries).expect("a record can hold each of these calls");
        assert_eq!(read(&written), (entries, None));
    }
}

#[test]
fn a_list_of_calls_has_one_journal() {
    let mut journals = Journals::new(2);
    let mut good = 0;
    for _ in 0..1_000 {
        let bytes = journals.journal();
        let (entries, stop) = read(&bytes);
        let end = stop.map_or(bytes.len() as u64, |stop| stop.offset) as usize;
        // What stands before the stop is the journal of the calls that were read.
        if end > 0 {
            assert_eq!(journal(&entries).as_deref(), Ok(&bytes[..end]));
        }
        good += usize::from(stop.is_none());
    }
    assert!((300..700).contains(&good), "{good} of 1000 end well");
}

#[test]
fn a_cut_leaves_the_calls_before_the_record() {
    for (text, starts) in [(FIRST, [1, 12, 41, 64]), (SECOND, [1, 20, 31, 54])] {
        let whole = bytes(text);
        let (entries, _) = read(&whole);
        for cut in 1..=whole.len() {
            let before = starts.iter().filter(|start| **start <= cut).count() - 1;
            let stop = Stop { offset: starts[before] as u64, reason: Reason::CutOff };
            let stop = (starts[before] < cut).then_some(stop);
            assert_eq!(read(&whole[..cut]), (entries[..before].to_vec(), stop));
        }
    }
    let stop = Stop { offset: 0, reason: Reason::Version };
    assert_eq!(read(b""), (Vec::new(), Some(stop)));
}

#[test]
fn the_writer_refuses_in_order() {
    let text = |length| {
        let text = vec![b' '; length];
        Entry::of(Call::WriteMap { kind: Kind::Group, caller: 1, process: 1, text })
    };
    let ids = |count| Entry::of(Call::Setgroups { caller: 1, groups: vec![0; count] });
    let lent = |length| entry("read-setgroups 1 1 0").lending(length);
    // Whatever the buffer, a call that no record holds gets 22.
    let mut small = vec![b'.'; 22];
    for refused in [text(MAX_TEXT + 1), ids(MAX_IDS + 1), lent(1 << 32), lent(u64::MAX)] {
        assert_eq!(write(&refused, &mut small, 0), Err(Errno::Einval));
        assert_eq!(journal(&[refused]), Err(Errno::Einval));
    }
    // The record of each of these has more bytes than the buffer.
    for refused in [text(MAX_TEXT), ids(MAX_IDS), lent((1 << 32) - 1)] {
        assert_eq!(write(&refused, &mut small, 0), Err(Errno::Erange));
    }
    let fork = entry("fork 1");
    for place in [12, 22, 23, usize::MAX] {
        assert_eq!(write(&fork, &mut small, place), Err(Errno::Erange));
    }
    assert_eq!(small, [b'.'; 22]);
    assert_eq!(write(&fork, &mut small, 11), Ok(22));
    assert_eq!(small, [&b"..........."[..], &bytes("0009 10 0000000000000001")].concat()[..]);
    let mut large = vec![b'.'; 65_538];
    assert_eq!(write(&text(MAX_TEXT), &mut large, 0), Ok(65_537));
    assert_eq!((large[65_536], large[65_537]), (b' ', b'.'));
    assert_eq!(write(&ids(MAX_IDS), &mut large, 3), Ok(65_538));
}

#[test]
fn a_read_prints_what_was_read() {
    let printed = |lengths: &[u64]| {
        let reads = lengths.iter().map(|length| entry("read-gid-map 1 1 0").lending(*length));
        let journal = journal(&reads.collect::<Vec<_>>()).expect("lengths of four bytes");
        String::from_utf8(output_of(&journal).0).expect("ASCII")
    };
    assert_eq!(printed(&[0, 32]), "refused 34 ERANGE\nrefused 34 ERANGE\n");
    let line = "length 33 \"         0          0 4294967295\\n\"\n";
    assert_eq!(printed(&[33, 34, 165, 166, 65_537, (1 << 32) - 1]), line.repeat(6));
}

/// Gives its bytes one by one, and the record of an own-ID question again and again after them.
struct Slow {
    bytes: Vec<u8>,
    given: usize,
    end: usize,
}

impl Read for Slow {
    fn read(&mut self, buffer: &mut [u8]) -> io::Result<usize> {
        if self.given == self.end || buffer.is_empty() {
            return Ok(0);
        }
        let again = bytes("0009 34 0000000000000001");
        let after = self.given.saturating_sub(self.bytes.len());
        buffer[0] = *self.bytes.get(self.given).unwrap_or(&again[after % again.len()]);
        self.given += 1;
        Ok(1)
    }
}

#[test]
fn a_journal_of_any_length_is_read_piece_by_piece() {
    let mut printed = Vec::new();
    let slow = Slow { bytes: bytes(FIRST), given: 0, end: 64 + 11 * 10_000 + 10 };
    assert_eq!(replay(slow, &mut printed).ok(), Some(10_003));
    let lines: Vec<&[u8]> = printed.split(|byte| *byte == b'\n').collect();
    assert_eq!(lines.len(), 10_005);
    assert_eq!(lines[10_002], b"uid 0 0 0 gid 0 0 0 groups");
    assert_eq!(lines[10_003], b"stopped at 110064: record cut off");
}
