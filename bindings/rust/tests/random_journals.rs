//! Random journals: every call that is read, its answer, and the stop are the reference program's, and calls that are
//! recorded give the reference program's bytes.

mod common;

use common::{kind_of, outcome, outcome_on_reference, way_of, Outcome};
use oarhatchet::journal::{replay, Answer, Call, RecordError, Recorder};
use oarhatchet::{Errno, Kind, Tables, Way};
use reference::generate::Journals;
use reference::journal::{self, Entry};
use reference::Direction;

/// Journals of each test. A build that is not optimised reads fewer, since it takes many times as long for each.
const JOURNALS: usize = if cfg!(debug_assertions) { 100 } else { 4_000 };

fn kind(kind: Kind) -> reference::Kind {
    match kind {
        Kind::User => reference::Kind::User,
        Kind::Group => reference::Kind::Group,
    }
}

fn direction(way: Way) -> Direction {
    match way {
        Way::Out => Direction::Out,
        Way::Back => Direction::Back,
    }
}

/// The call as the reference program's journal holds it.
fn entry(call: &Call) -> Entry {
    use reference::Call as Known;
    let (buffer, mut lent) = (Vec::new(), 0);
    let known = match call.clone() {
        Call::Fork { caller } => Known::Fork { caller },
        Call::Clone { caller } => Known::Clone { caller },
        Call::Unshare { caller } => Known::Unshare { caller },
        Call::Setns { caller, namespace } => Known::Setns { caller, namespace },
        Call::WriteMap { kind: k, caller, process, text } => {
            Known::WriteMap { kind: kind(k), caller, process, text }
        }
        Call::WriteSetgroups { caller, process, text } => {
            Known::WriteSetgroups { caller, process, text }
        }
        Call::ReadMap { kind: k, caller, process, length } => {
            lent = length;
            Known::ReadMap { kind: kind(k), caller, process, buffer }
        }
        Call::ReadSetgroups { caller, process, length } => {
            lent = length;
            Known::ReadSetgroups { caller, process, buffer }
        }
        Call::SetIds { kind: k, caller, ids } => Known::SetIds { kind: kind(k), caller, ids },
        Call::Setgroups { caller, groups } => Known::Setgroups { caller, groups },
        Call::Capable { caller, namespace, number } => Known::Capable { caller, namespace, number },
        Call::Capset { caller, permitted, effective } => {
            Known::Capset { caller, permitted, effective }
        }
        Call::Getids { caller } => Known::GetIds { caller },
        Call::Translate { kind: k, way, caller, namespace, id } => {
            Known::Translate { kind: kind(k), direction: direction(way), caller, namespace, id }
        }
        other => panic!("{other:?} is unknown"),
    };
    Entry::of(known).lending(lent.into())
}

/// The answer as the reference program has it.
fn known(answer: Answer) -> Outcome {
    Outcome::Answer(match answer {
        Answer::Refused(errno) => {
            return Outcome::Refused { number: errno.number(), buffer: Vec::new() }
        }
        Answer::Done => reference::Answer::Done,
        Answer::Child(process) => reference::Answer::Child(process),
        Answer::ChildIn(child) => {
            reference::Answer::ChildInNamespace { child: child.process, namespace: child.namespace }
        }
        Answer::Namespace(namespace) => reference::Answer::Namespace(namespace),
        Answer::Holds(true) => reference::Answer::Yes,
        Answer::Holds(false) => reference::Answer::No,
        Answer::Text(text) => {
            reference::Answer::Length { length: text.len(), buffer: text.into_bytes() }
        }
        Answer::Ids(ids) => reference::Answer::OwnIds {
            user: ids.users,
            group: ids.groups,
            groups: ids.supplementary.to_vec(),
        },
        Answer::Id(id) => id.map_or(reference::Answer::Unmapped, reference::Answer::Id),
        other => panic!("{other:?} is unknown"),
    })
}

/// The outcome with only the bytes that were read.
fn bytes_read(outcome: Outcome) -> Outcome {
    match outcome {
        Outcome::Answer(reference::Answer::Length { length, mut buffer }) => {
            buffer.truncate(length);
            Outcome::Answer(reference::Answer::Length { length, buffer })
        }
        Outcome::Refused { number, .. } => Outcome::Refused { number, buffer: Vec::new() },
        other => other,
    }
}

#[test]
fn journals_are_read_and_made_alike() {
    let mut journals = Journals::new(1);
    let (mut calls, mut stops) = (0, 0);
    for _ in 0..JOURNALS {
        let bytes = journals.journal();
        let (entries, stop) = journal::read(&bytes);
        let mut expected = reference::Tables::initial();
        let mut made = replay(&bytes);
        for right in entries {
            let (call, answer) = made.next().expect("a call is left").expect("its record is good");
            assert_eq!(entry(&call), right);
            let outcome = outcome_on_reference(&mut expected, &right.to_call());
            assert_eq!(known(answer), bytes_read(outcome), "{call:?}");
            calls += 1;
        }
        let stopped = made.next().map(|last| last.expect_err("no call is left"));
        assert_eq!(stopped.map(|s| s.to_string()), stop.map(|s| s.to_string()));
        assert_eq!(made.next(), None);
        stops += usize::from(stopped.is_some());
    }
    assert!(calls > JOURNALS && stops > JOURNALS / 4, "{calls} calls and {stops} stops");
}

/// Makes a call and records it. Its refusal, if it is refused.
fn record(recorder: &mut Recorder<Vec<u8>>, call: &reference::Call) -> Option<Errno> {
    use reference::Call as Known;
    let result = match call.clone() {
        Known::Fork { caller } => recorder.fork(caller).map(drop),
        Known::Clone { caller } => recorder.clone_process(caller).map(drop),
        Known::Unshare { caller } => recorder.unshare(caller).map(drop),
        Known::Setns { caller, namespace } => recorder.setns(caller, namespace),
        Known::WriteMap { kind, caller, process, text } => {
            recorder.write_map(kind_of(kind), caller, process, &text)
        }
        Known::WriteSetgroups { caller, process, text } => {
            recorder.write_setgroups(caller, process, &text)
        }
        Known::ReadMap { kind, caller, process, mut buffer } => {
            recorder.read_map(kind_of(kind), caller, process, &mut buffer).map(drop)
        }
        Known::ReadSetgroups { caller, process, mut buffer } => {
            recorder.read_setgroups(caller, process, &mut buffer).map(drop)
        }
        Known::SetIds { kind, caller, ids } => recorder.set_ids(kind_of(kind), caller, ids),
        Known::Setgroups { caller, groups } => recorder.setgroups(caller, &groups),
        Known::Capable { caller, namespace, number } => {
            recorder.capable(caller, namespace, number).map(drop)
        }
        Known::Capset { caller, permitted, effective } => {
            recorder.capset(caller, permitted, effective)
        }
        Known::GetIds { caller } => recorder.getids(caller).map(drop),
        Known::Translate { kind, direction, caller, namespace, id } => {
            let (kind, way) = (kind_of(kind), way_of(direction));
            recorder.translate(kind, way, caller, namespace, id).map(drop)
        }
    };
    match result {
        Ok(()) => None,
        Err(RecordError::Refused(errno)) => Some(errno),
        Err(error) => panic!("{error:?}"),
    }
}

#[test]
fn calls_are_recorded_alike_and_answer_again() {
    let mut journals = Journals::new(2);
    for _ in 0..JOURNALS / 4 {
        let calls: Vec<_> = journals.entries().iter().map(Entry::to_call).collect();
        let mut recorder = Recorder::new(Vec::new()).expect("the version is written");
        let refusals: Vec<_> = calls.iter().map(|call| record(&mut recorder, call)).collect();
        let (_, bytes) = recorder.into_parts();
        let entries: Vec<_> = calls.iter().cloned().map(Entry::of).collect();
        assert_eq!(Ok(&bytes), journal::journal(&entries).as_ref());

        let mut tables = Tables::new();
        let mut made = replay(&bytes);
        for (call, refusal) in calls.iter().zip(refusals) {
            let (_, answer) = made.next().expect("a call is left").expect("its record is good");
            assert_eq!(matches!(answer, Answer::Refused(_)), refusal.is_some());
            let again = known(answer);
            assert_eq!(again, bytes_read(outcome(&mut tables, call)), "{call:?}");
            if let Outcome::Refused { number, .. } = again {
                assert_eq!(refusal.map(Errno::number), Some(number));
            }
        }
        assert_eq!(made.next(), None);
    }
}
