//! Random lists of calls: every answer, and afterwards every table as the public reads show it, is the reference
//! program's.

mod common;

use std::thread;

use common::{outcome, outcome_on_reference, Outcome};
use oarhatchet::{Tables, CAP_LAST_CAP, CAP_SETGID, CAP_SETUID, CAP_SYS_ADMIN, NO_ID, OVERFLOW_ID};
use reference::generate::Generator;
use reference::random::Random;
use reference::script::{parse, Item};
use reference::{show, Answer, Call, Direction, Kind};

/// Calls in all lists. A build that is not optimised makes fewer, since it takes many times as long for each.
const CALLS: u64 = if cfg!(debug_assertions) { 60_000 } else { 5_200_000 };
const THREADS: u64 = 4;
const LIST_LENGTHS: [u64; 8] = [30, 60, 100, 200, 300, 400, 600, 1000];
const KINDS: [Kind; 2] = [Kind::User, Kind::Group];
/// The buffer of a read: five lines of 33 bytes, which is the longest text of a map, and one byte more.
const BUFFER: usize = 5 * 33 + 1;
/// SETGID, SETUID and SYS_ADMIN, the ends, and one that is refused.
const CAPABILITIES: [u32; 6] =
    [0, CAP_SETGID, CAP_SETUID, CAP_SYS_ADMIN, CAP_LAST_CAP, CAP_LAST_CAP + 1];
const EDGES: [u32; 5] = [0, OVERFLOW_ID, 65_536, NO_ID - 1, NO_ID];

/// Both tables, and the calls that they have answered alike.
struct Pair {
    tables: Tables,
    expected: reference::Tables,
    done: Vec<Call>,
}

impl Pair {
    fn initial() -> Pair {
        Pair { tables: Tables::new(), expected: reference::Tables::initial(), done: Vec::new() }
    }

    /// Makes a call on both.
    fn answer(&mut self, call: &Call) -> Outcome {
        let right = outcome_on_reference(&mut self.expected, call);
        let given = outcome(&mut self.tables, call);
        if given != right {
            let script: Vec<Vec<u8>> = self.done.iter().chain([call]).map(show::call).collect();
            let script = String::from_utf8_lossy(&script.join(&b'\n')).into_owned();
            panic!("{script}\ngives {given:?}\nand not {right:?}");
        }
        right
    }

    /// Compares what the public reads show of every process, and of one name that names none.
    fn compare_processes(&mut self) {
        let top = self.expected.processes.len() as u64;
        for caller in 1..=top + 1 {
            self.answer(&Call::GetIds { caller });
            let other = 1 + (caller * 7) % top;
            for (caller, process) in [(1, caller), (caller, caller), (caller, other)] {
                for kind in KINDS {
                    let buffer = vec![b'.'; BUFFER];
                    self.answer(&Call::ReadMap { kind, caller, process, buffer });
                }
            }
            self.answer(&Call::ReadSetgroups { caller: 1, process: caller, buffer: vec![0; 6] });
        }
    }

    /// Compares what the public questions show of every namespace, and of one name that names none.
    fn compare_namespaces(&mut self, random: &mut Random) {
        let top = self.expected.namespaces.len() as u64;
        for namespace in 0..=top {
            let caller = 1 + random.below(self.expected.processes.len() as u64);
            for number in CAPABILITIES {
                self.answer(&Call::Capable { caller: 1, namespace, number });
                self.answer(&Call::Capable { caller, namespace, number });
            }
            for kind in KINDS {
                for id in self.ids_near(kind, namespace, random) {
                    self.translate(kind, caller, namespace, id);
                }
            }
        }
    }

    /// Compares a translation out and one back, and that each undoes the other.
    fn translate(&mut self, kind: Kind, caller: u64, namespace: u64, id: u32) {
        for (there, again) in [(Direction::Out, Direction::Back), (Direction::Back, Direction::Out)]
        {
            let call = Call::Translate { kind, direction: there, caller, namespace, id };
            if let Outcome::Answer(Answer::Id(found)) = self.answer(&call) {
                let call = Call::Translate { kind, direction: again, caller, namespace, id: found };
                assert_eq!(self.answer(&call), Outcome::Answer(Answer::Id(id)));
            }
        }
    }

    /// IDs at the edges of a namespace's map on both sides, and some others.
    fn ids_near(&self, kind: Kind, namespace: u64, random: &mut Random) -> Vec<u32> {
        let mut ids = vec![random.pick(&EDGES), random.next() as u32];
        if let Some(found) = self.expected.namespaces.get(&namespace) {
            for line in found.map(kind).lines() {
                let offset = random.pick(&[0, line.count - 1, line.count]);
                ids.push(line.inside.wrapping_add(offset));
                ids.push(line.parent.wrapping_add(offset));
            }
        }
        ids
    }
}

/// Runs lists of `calls` calls in all, and counts the calls made.
fn run_lists(seed: u64, calls: u64) -> u64 {
    let mut generator = Generator::new(seed, true);
    let mut random = Random::new(!seed);
    let mut made = 0;
    let mut index = 0;
    while made < calls {
        let length = random.pick(&LIST_LENGTHS).min(calls - made);
        let script = generator.list(index, length);
        let mut pair = Pair::initial();
        for line in script.split(|byte| *byte == b'\n') {
            // A line that is malformed makes no call.
            if let Item::Call(call) = parse(line) {
                pair.answer(&call);
                pair.done.push(call);
                made += 1;
            }
        }
        pair.compare_processes();
        pair.compare_namespaces(&mut random);
        index += 1;
    }
    made
}

#[test]
fn random_lists_answer_alike() {
    let made: u64 = thread::scope(|scope| {
        let runs: Vec<_> = (1..=THREADS)
            .map(|seed| scope.spawn(move || run_lists(seed, CALLS / THREADS)))
            .collect();
        runs.into_iter().map(|run| run.join().expect("every answer is alike")).sum()
    });
    assert_eq!(made, CALLS);
    assert!(cfg!(debug_assertions) || made >= 5_000_000);
    println!("{made} calls answered alike");
}
