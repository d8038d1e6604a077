//! The journals that were written by hand, with the answers that were worked out by hand.

use std::collections::BTreeSet;
use std::fs;
use std::path::{Path, PathBuf};

use reference::count::Counts;
use reference::generate::Journals;
use reference::hex;
use reference::journal::{output_of, parts, read};

/// The files of hexadecimal words.
fn files() -> Vec<PathBuf> {
    let folder = Path::new(env!("CARGO_MANIFEST_DIR")).join("../transcripts/journals");
    let entries = fs::read_dir(folder).expect("the folder is there");
    let paths = entries.map(|entry| entry.expect("it can be read").path());
    paths.filter(|path| path.extension().is_some_and(|end| end == "hex")).collect()
}

fn journal_in(file: &Path) -> Vec<u8> {
    let text = fs::read_to_string(file).expect("a text");
    hex::read(&text).unwrap_or_else(|line| panic!("{}, line {line}", file.display()))
}

#[test]
fn every_journal_has_its_answers() {
    for file in files() {
        let answers = fs::read_to_string(file.with_extension("answers")).expect("answers");
        let (output, _) = output_of(&journal_in(&file));
        assert_eq!(String::from_utf8_lossy(&output), answers, "{}", file.display());
    }
}

#[test]
fn they_have_every_call_and_every_stop() {
    let (mut calls, mut reasons) = (BTreeSet::new(), BTreeSet::new());
    for file in files() {
        let journal = journal_in(&file);
        let (entries, stop) = read(&journal);
        reasons.insert(stop.map(|stop| stop.reason));
        calls.extend(parts(&journal).iter().skip(1).take(entries.len()).map(|record| record[2]));
    }
    // Five reasons, and the good end.
    assert_eq!((calls.len(), reasons.len()), (20, 6));
}

#[test]
fn a_long_journal_has_every_answer() {
    let mut counts = Counts::new(true);
    counts.add_journal(&Journals::new(1).long_journal(b"clone 1\nfork 2\n", 6_000));
    assert!(counts.every_answer(), "{counts}");
}
