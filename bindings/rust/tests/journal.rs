//! The two journals of docs/journal.md, every stop, and writers that fail.

use std::error::Error;
use std::io::{self, Write};

use oarhatchet::journal::{replay, Answer, Call, Reason, RecordError, Recorder, Stopped, VERSION};
use oarhatchet::{Child, Errno, Kind, Tables, Way};

/// A clone, a write of the child's user map, and the read of that map.
const FIRST: &[u8] = b"\x01\
    \x00\x09\x11\0\0\0\0\0\0\0\x01\
    \x00\x1b\x20\0\0\0\0\0\0\0\x01\0\0\0\0\0\0\0\x020 10000 5\n\
    \x00\x15\x23\0\0\0\0\0\0\0\x01\0\0\0\0\0\0\0\x02\0\0\0\x28";

/// Where the records of the first start, and where it ends.
const STARTS: [usize; 4] = [1, 12, 41, 64];

/// Groups, own IDs, a translation, and a fork with a byte too many.
const SECOND: &[u8] = b"\x01\
    \x00\x11\x32\0\0\0\0\0\0\0\x01\0\0\0\x05\x00\x01\x11\x70\
    \x00\x09\x34\0\0\0\0\0\0\0\x01\
    \x00\x15\x41\0\0\0\0\0\0\0\x01\0\0\0\0\0\0\0\0\x00\x00\xff\xff\
    \x00\x0a\x10\0\0\0\0\0\0\0\x01\0";

type Made = Vec<(Call, Answer)>;

/// All that is read, and the stop if there is one.
fn read(journal: &[u8]) -> (Made, Option<Stopped>) {
    let mut made = Vec::new();
    let mut calls = replay(journal);
    for call in calls.by_ref() {
        match call {
            Ok(call) => made.push(call),
            Err(stopped) => {
                assert_eq!(calls.next(), None, "nothing is read after a stop");
                return (made, Some(stopped));
            }
        }
    }
    assert_eq!(calls.next(), None, "nothing is read after the end");
    (made, None)
}

fn stop(journal: &[u8]) -> Option<(usize, Reason)> {
    read(journal).1.map(|stopped| (stopped.offset, stopped.reason))
}

/// What the calls of the first journal answer.
fn first_made() -> Made {
    vec![
        (Call::Clone { caller: 1 }, Answer::ChildIn(Child { process: 2, namespace: 1 })),
        (
            Call::WriteMap { kind: Kind::User, caller: 1, process: 2, text: b"0 10000 5\n".into() },
            Answer::Done,
        ),
        (
            Call::ReadMap { kind: Kind::User, caller: 1, process: 2, length: 40 },
            Answer::Text("         0      10000          5\n".into()),
        ),
    ]
}

#[test]
fn the_first_journal() {
    assert_eq!(read(FIRST), (first_made(), None));
    let mut recorder = Recorder::new(Vec::new()).expect("the version is written");
    let child = recorder.clone_process(1).expect("a child is made");
    recorder.write_map(Kind::User, 1, child.process, b"0 10000 5\n").expect("the map is written");
    let mut buffer = [b'.'; 40];
    let length = recorder.read_map(Kind::User, 1, child.process, &mut buffer);
    assert_eq!(length.expect("the map is read"), 33);
    assert_eq!(&buffer, b"         0      10000          5\n.......");
    assert_eq!(recorder.into_parts().1, FIRST);
}

#[test]
fn the_second_journal() {
    let (made, stopped) = read(SECOND);
    assert_eq!(made[0].0, Call::Setgroups { caller: 1, groups: vec![5, 70000] });
    assert_eq!(made[0].1, Answer::Done);
    assert_eq!(made[1].0, Call::Getids { caller: 1 });
    let Answer::Ids(ids) = &made[1].1 else { panic!("{:?} are no IDs", made[1].1) };
    assert_eq!((ids.users, ids.groups), ([0; 3], [0; 3]));
    assert_eq!(ids.supplementary, [5, 70000]);
    let (kind, way) = (Kind::User, Way::Out);
    assert_eq!(made[2].0, Call::Translate { kind, way, caller: 1, namespace: 0, id: 65535 });
    assert_eq!(made[2].1, Answer::Id(Some(65535)));
    assert_eq!(made.len(), 3);
    let stopped = stopped.expect("the last record is bad");
    assert_eq!(stopped.to_string(), "stopped at 54: leftover bytes");

    let mut recorder = Recorder::new(Vec::new()).expect("the version is written");
    recorder.setgroups(1, &[5, 70000]).expect("the groups are set");
    assert_eq!(recorder.getids(1).expect("the IDs are told").supplementary, [5, 70000]);
    let id = recorder.translate(kind, way, 1, 0, 65535).expect("the ID is translated");
    assert_eq!(id, Some(65535));
    recorder.fork(1).expect("a child is made");
    let (_, journal) = recorder.into_parts();
    assert_eq!(journal[..55], SECOND[..55]);
    assert_eq!(journal[56..], SECOND[56..65]);
}

#[test]
fn a_cut_journal_stops_at_the_record_that_is_cut() {
    for length in 0..FIRST.len() {
        let (made, stopped) = read(&FIRST[..length]);
        let whole = STARTS.iter().filter(|start| **start <= length).count();
        let expected = match whole {
            0 => Some(Stopped { offset: 0, reason: Reason::Version }),
            _ if STARTS[whole - 1] == length => None,
            _ => Some(Stopped { offset: STARTS[whole - 1], reason: Reason::Cut }),
        };
        assert_eq!(stopped, expected, "cut at {length}");
        assert_eq!(made, first_made()[..whole.saturating_sub(1)], "cut at {length}");
    }
}

#[test]
fn every_reason_to_stop() {
    assert_eq!(stop(&[VERSION]), None);
    assert_eq!(stop(&[]), Some((0, Reason::Version)));
    assert_eq!(stop(&[0]), Some((0, Reason::Version)));
    assert_eq!(stop(&[2, 0, 9]), Some((0, Reason::Version)));
    assert_eq!(stop(&[1, 0]), Some((1, Reason::Cut)));
    assert_eq!(stop(&[1, 0, 1]), Some((1, Reason::Cut)));
    assert_eq!(stop(&[1, 0, 0]), Some((1, Reason::Short)));
    assert_eq!(stop(&[1, 0, 0, 0xff]), Some((1, Reason::Short)));
    assert_eq!(stop(&[1, 0, 1, 0xff]), Some((1, Reason::UnknownCall)));
    assert_eq!(stop(&[1, 0, 2, 0x10, 0]), Some((1, Reason::Short)));
    assert_eq!(stop(&[1, 0, 10, 0x10, 0, 0, 0, 0, 0, 0, 0, 1, 0]), Some((1, Reason::Leftover)));
    assert_eq!(stop(&[1, 0, 10, 0x32, 0, 0, 0, 0, 0, 0, 0, 1, 0]), Some((1, Reason::Leftover)));
    let texts = [
        (Reason::Version, "stopped at 7: version missing or unknown"),
        (Reason::Cut, "stopped at 7: record cut off"),
        (Reason::Short, "stopped at 7: short record"),
        (Reason::UnknownCall, "stopped at 7: unknown call byte"),
        (Reason::Leftover, "stopped at 7: leftover bytes"),
    ];
    for (reason, text) in texts {
        assert_eq!(Stopped { offset: 7, reason }.to_string(), text);
    }
}

/// Takes so many bytes, as many at once as it is given or at most `at_once`, and then fails.
struct Failing {
    taken: Vec<u8>,
    room: usize,
    at_once: usize,
}

impl Write for Failing {
    fn write(&mut self, bytes: &[u8]) -> io::Result<usize> {
        let count = bytes.len().min(self.at_once).min(self.room);
        if count == 0 {
            return Err(io::Error::other("full"));
        }
        self.room -= count;
        self.taken.extend_from_slice(&bytes[..count]);
        Ok(count)
    }

    fn flush(&mut self) -> io::Result<()> {
        Ok(())
    }
}

fn failing(room: usize, at_once: usize) -> Recorder<Failing> {
    Recorder::new(Failing { taken: Vec::new(), room, at_once }).expect("the version is written")
}

fn unrecorded<T>(result: Result<T, RecordError>) -> io::Error {
    match result {
        Err(RecordError::Unrecorded(error)) => error,
        Err(other) => panic!("{other:?} was recorded"),
        Ok(_) => panic!("the call was recorded"),
    }
}

#[test]
fn a_call_is_made_where_its_record_is_written_in_pieces() {
    let mut recorder = failing(1 + 2 * 11, 3);
    assert_eq!(recorder.fork(1).expect("a child is made"), 2);
    assert_eq!(recorder.fork(1).expect("a child is made"), 3);
    let (_, writer) = recorder.into_parts();
    assert_eq!(read(&writer.taken).0.len(), 2);
}

/// A writer that takes no byte of a record can be tried again.
#[test]
fn a_full_writer_makes_no_call() {
    let mut recorder = failing(1 + 11, 100);
    assert_eq!(recorder.fork(1).expect("a child is made"), 2);
    assert_eq!(unrecorded(recorder.fork(1)).to_string(), "full");
    assert_eq!(unrecorded(recorder.getids(1)).to_string(), "full");
    let (tables, mut writer) = recorder.into_parts();
    writer.room = 11;
    let mut recorder = Recorder::resume(tables, writer);
    assert_eq!(recorder.fork(1).expect("a child is made"), 3);
    assert_eq!(read(&recorder.into_parts().1.taken).0.len(), 2);
}

/// A record that is written in part is the last one, and the call is not made.
#[test]
fn a_torn_record_is_the_last() {
    for part in 1..11 {
        let mut recorder = failing(1 + 11 + part, 2);
        assert_eq!(recorder.fork(1).expect("a child is made"), 2);
        assert_eq!(unrecorded(recorder.fork(1)).to_string(), "full");
        let error = unrecorded(recorder.fork(1));
        assert_eq!(error.to_string(), "the journal ends within a record");
        let (mut tables, writer) = recorder.into_parts();
        assert_eq!(tables.fork(1), Ok(3));
        let (made, stopped) = read(&writer.taken);
        assert_eq!(made, [(Call::Fork { caller: 1 }, Answer::Child(2))]);
        assert_eq!(stopped, Some(Stopped { offset: 12, reason: Reason::Cut }));
    }
}

#[test]
fn a_writer_that_fails_starts_no_journal() {
    let full = Failing { taken: Vec::new(), room: 0, at_once: 1 };
    assert_eq!(Recorder::new(full).expect_err("no byte is taken").to_string(), "full");
}

#[test]
fn the_longest_records() {
    let mut recorder = Recorder::new(Vec::new()).expect("the version is written");
    let long = |result| {
        let error = unrecorded(result);
        assert_eq!(error.kind(), io::ErrorKind::InvalidInput);
    };
    long(recorder.write_map(Kind::Group, 1, 1, &[b' '; 65519]));
    long(recorder.write_setgroups(1, 1, &[b' '; 65519]));
    long(recorder.setgroups(1, &[0; 16382]));
    assert_eq!(recorder.tables().getids(1).expect("the IDs are told").supplementary, []);
    let refusals = [
        recorder.write_map(Kind::Group, 1, 1, &[b' '; 65518]),
        recorder.write_setgroups(1, 1, &[b' '; 65518]),
        recorder.setgroups(1, &[7; 16381]),
    ];
    let refusals = refusals.map(|result| result.expect_err("the call is refused").refusal());
    assert_eq!(refusals, [Some(Errno::Eperm), Some(Errno::Einval), Some(Errno::Einval)]);
    let (_, journal) = recorder.into_parts();
    assert_eq!(journal.len(), 1 + 65537 + 65537 + 65535);
    let (made, stopped) = read(&journal);
    assert_eq!(stopped, None);
    assert_eq!(made[2].0, Call::Setgroups { caller: 1, groups: vec![7; 16381] });
    let answers = [Errno::Eperm, Errno::Einval, Errno::Einval].map(Answer::Refused);
    assert!(made.iter().map(|(_, answer)| answer).eq(&answers));
}

/// A buffer that is longer than every text reads the same when the call is made again.
#[test]
fn a_long_buffer_is_kept_as_its_length() {
    let mut recorder = Recorder::new(Vec::new()).expect("the version is written");
    let mut buffer = vec![b'.'; 70_000];
    assert_eq!(recorder.read_map(Kind::Group, 1, 1, &mut buffer).expect("the map is read"), 33);
    assert_eq!(recorder.read_setgroups(1, 1, &mut buffer).expect("the text is read"), 6);
    let (_, journal) = recorder.into_parts();
    let (made, _) = read(&journal);
    let length = 70_000;
    assert_eq!(made[0].0, Call::ReadMap { kind: Kind::Group, caller: 1, process: 1, length });
    assert_eq!(made[0].1, Answer::Text("         0          0 4294967295\n".into()));
    assert_eq!(made[1].0, Call::ReadSetgroups { caller: 1, process: 1, length });
    assert_eq!(made[1].1, Answer::Text("allow\n".into()));
}

#[test]
fn errors_are_those_that_they_hold() {
    let refused = RecordError::Refused(Errno::Eperm);
    assert_eq!(refused.to_string(), "EPERM: not permitted");
    assert!(refused.source().is_none());
    assert_eq!(io::Error::from(refused).raw_os_error(), Some(1));
    let unrecorded = RecordError::Unrecorded(io::Error::other("full"));
    assert_eq!(unrecorded.to_string(), "not recorded, and so not made");
    assert_eq!(unrecorded.source().map(ToString::to_string), Some("full".into()));
    assert_eq!(io::Error::from(unrecorded).to_string(), "full");
}

#[test]
fn the_parts_go_to_other_threads() {
    fn shared<T: Send + Sync>(value: T) -> T {
        value
    }
    let recorder = shared(Recorder::resume(Tables::new(), Vec::new()));
    assert!(shared(replay(FIRST)).all(|call| call.is_ok()));
    assert_eq!(recorder.into_parts().1, []);
}
