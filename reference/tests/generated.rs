//! Generated scripts and journals meet every rule; a comparison finds and cuts down a difference.

use std::collections::BTreeSet;

use reference::compare::shrink::Shrinker;
use reference::compare::{compare, compare_record, compare_replay, records};
use reference::count::Counts;
use reference::generate::{Generator, Journals};
use reference::journal::{journal_of, parts, read, Why};
use reference::script::{parse, Item};

#[test]
fn every_row_comes() {
    for with_translate in [true, false] {
        for seed in 1..=3 {
            let mut generator = Generator::new(seed, with_translate);
            let mut counts = Counts::new(with_translate);
            for index in 0..100 {
                counts.add(&generator.list(index, 200));
            }
            assert!(counts.complete(), "seed {seed}\n{counts}");
        }
    }
}

#[test]
fn a_list_has_its_length_and_its_seed_decides_it() {
    let list = |seed| Generator::new(seed, false).list(6, 300);
    assert_eq!(list(1), list(1));
    assert_ne!(list(1), list(2));
    let script = list(1);
    let is_call = |line: &&[u8]| matches!(parse(line), Item::Call(_));
    assert!(script.starts_with(b"fresh\n"));
    assert_eq!(script.split(|b| *b == b'\n').filter(is_call).count(), 300);
    assert!(!script.windows(10).any(|part| part == b"translate-"));
}

#[test]
fn journals_have_every_call_and_every_stop() {
    for seed in 1..=3 {
        let mut journals = Journals::new(seed);
        let (mut calls, mut reasons, mut longest) = (BTreeSet::new(), BTreeSet::new(), 0);
        for _ in 0..1_000 {
            let journal = journals.journal();
            let (entries, stop) = read(&journal);
            reasons.insert(stop.map(|stop| stop.reason));
            for record in parts(&journal).iter().skip(1).take(entries.len()) {
                calls.insert(record[2]);
                longest = longest.max(record.len());
            }
        }
        assert_eq!((calls.len(), reasons.len(), longest), (20, 6, 65_537));
    }
}

#[test]
fn scripts_to_be_recorded_end_in_every_way() {
    let mut journals = Journals::new(1);
    let mut ends = [0; 3];
    for _ in 0..300 {
        let (_, halt) = journal_of(&journals.script());
        ends[match halt.map(|halt| halt.why) {
            None => 0,
            Some(Why::Malformed(_)) => 1,
            Some(_) => 2,
        }] += 1;
    }
    assert!(ends.iter().all(|count| *count > 10), "{ends:?}");
}

#[test]
fn a_program_that_echoes_differs_on_one_line() {
    let result = compare(1_000, "cat", 1, true).expect("cat runs");
    let difference = result.difference.expect("cat answers nothing right");
    assert_eq!(difference.input.iter().filter(|b| **b == b'\n').count(), 1);
    assert_eq!(difference.program, difference.input);
}

#[test]
fn parts_are_cut_down_to_those_that_differ() {
    // Two programs that differ where a list has a fork, and after it a text with a 7.
    let mut fork = b"\x00\x09\x10".to_vec();
    fork.extend(500_u64.to_be_bytes());
    let mut write = vec![0, 117, 0x20];
    write.extend([9; 16]);
    write.extend([b'7'; 100]);
    let other = [&b"\x00\x09\x34"[..], &[1; 8]].concat();
    let shrinker = Shrinker::new(|parts| {
        let fork = parts.iter().position(|part| part.get(2) == Some(&0x10));
        let write = parts.iter().rposition(|part| part[2..].contains(&b'7'));
        Ok(fork.is_some() && fork < write)
    });
    let mut parts = vec![other; 50];
    parts.insert(20, fork);
    parts.insert(40, write);
    let shortest = shrinker.shortest(parts, records::simpler).expect("no program runs");
    let fork = b"\x00\x09\x10\0\0\0\0\0\0\0\0".to_vec();
    let write = [&b"\x00\x12\x20"[..], &[0; 16], b"7"].concat();
    assert_eq!(shortest, [fork, write]);
}

#[test]
fn a_journal_is_cut_down() {
    let result = compare_replay(1_000, "cat", 1).expect("cat runs");
    let difference = result.difference.expect("cat answers nothing right");
    assert_eq!(difference.input, b"");
    assert_eq!(difference.reference, b"stopped at 0: version missing or unknown\n");
}

#[test]
fn a_script_to_be_recorded_is_cut_down() {
    let result = compare_record(1_000, "cat", 1).expect("cat runs");
    let difference = result.difference.expect("cat writes no version");
    assert_eq!((difference.input, difference.reference), (Vec::new(), b"\x01".to_vec()));
}

#[test]
fn a_program_that_prints_nothing_differs() {
    for program in ["true", "false"] {
        let result = compare(100, program, 1, true).expect("the program runs");
        assert!(result.difference.is_some());
        let result = compare_replay(100, program, 1).expect("the program runs");
        assert!(result.difference.is_some());
        let result = compare_record(100, program, 1).expect("the program runs");
        assert!(result.difference.is_some());
    }
}

#[test]
fn a_program_that_is_missing_is_an_error() {
    assert!(compare(100, "./no-such-program", 1, true).is_err());
}
