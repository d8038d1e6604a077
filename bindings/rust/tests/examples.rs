//! The scripts in `examples/` answer alike on the archive and on the reference program.

mod common;

use std::fs;
use std::path::Path;

use common::{outcome, outcome_on_reference};
use oarhatchet::Tables;
use reference::script::{parse, Item};

/// Runs a script on both, and counts its calls.
fn run(name: &str, script: &[u8]) -> usize {
    let mut tables = Tables::new();
    let mut expected = reference::Tables::initial();
    let mut calls = 0;
    for (index, line) in script.split(|byte| *byte == b'\n').enumerate() {
        let place = index + 1;
        match parse(line) {
            Item::Blank | Item::Comment => {}
            Item::Fresh => {
                tables = Tables::new();
                expected = reference::Tables::initial();
            }
            Item::Call(call) => {
                let right = outcome_on_reference(&mut expected, &call);
                assert_eq!(outcome(&mut tables, &call), right, "{name}, line {place}: {call:?}");
                calls += 1;
            }
            Item::Malformed(why) => panic!("{name}, line {place}: {why:?}"),
        }
    }
    calls
}

#[test]
fn every_example_answers_alike() {
    let folder = Path::new(env!("CARGO_MANIFEST_DIR")).join("../../examples");
    let mut scripts = 0;
    for entry in fs::read_dir(folder).expect("the folder of examples is there") {
        let path = entry.expect("the folder can be read").path();
        let script = fs::read(&path).expect("the script can be read");
        assert!(run(&path.display().to_string(), &script) > 0, "{} is empty", path.display());
        scripts += 1;
    }
    assert!(scripts >= 3);
}
