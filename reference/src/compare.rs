//! Gives random inputs to this implementation and to another program, and cuts down an input on
//! which they differ.

mod lines;
mod program;
mod record;
pub mod records;
mod replay;
pub mod shrink;

use std::io;

use crate::generate::Generator;
use crate::random::Random;
use crate::script::{self, Item};
use program::Program;
use shrink::Shrinker;

pub use record::compare_record;
pub use replay::compare_replay;

/// Scripts are given to the other program in batches of about so many calls.
const BATCH: u64 = 20_000;
const LIST_LENGTHS: [u64; 9] = [30, 30, 60, 100, 200, 200, 300, 400, 1000];

/// An input on which the two outputs differ.
pub struct Difference {
    pub input: Vec<u8>,
    pub reference: Vec<u8>,
    pub program: Vec<u8>,
}

/// What a comparison comes to.
#[derive(Default)]
pub struct Comparison {
    pub calls: u64,
    /// Lists of calls: scripts or journals.
    pub lists: u64,
    pub difference: Option<Difference>,
}

/// Compares `calls` generated calls, up to the first difference.
pub fn compare(
    calls: u64,
    program: &str,
    seed: u64,
    with_translate: bool,
) -> io::Result<Comparison> {
    let program = Program::exact(program);
    let mut generator = Generator::new(seed, with_translate);
    let mut lengths = Random::new(!seed);
    let mut result = Comparison::default();
    while result.calls < calls && result.difference.is_none() {
        let end = calls.min(result.calls + BATCH);
        let mut batch = Vec::new();
        while result.calls < end {
            let length = lengths.pick(&LIST_LENGTHS).min(end - result.calls);
            batch.push(generator.list(result.lists, length));
            result.calls += length;
            result.lists += 1;
        }
        result.difference = compare_batch(&program, &batch)?;
    }
    Ok(result)
}

fn compare_batch(program: &Program, batch: &[Vec<u8>]) -> io::Result<Option<Difference>> {
    let expected: Vec<Vec<u8>> = batch.iter().map(|list| script::output_of(list)).collect();
    let output = program.output_of(&batch.concat())?;
    if output == expected.concat() {
        return Ok(None);
    }
    // The first list that the output does not go through unchanged.
    let mut rest = &output[..];
    let mut index = 0;
    while index + 1 < batch.len() {
        match rest.strip_prefix(&expected[index][..]) {
            Some(left) => rest = left,
            None => break,
        }
        index += 1;
    }
    let script = if differs(program, &batch[index])? {
        batch[index].clone()
    } else {
        batch[..=index].concat()
    };
    shortest(program, &script).map(Some)
}

fn differs(program: &Program, script: &[u8]) -> io::Result<bool> {
    Ok(program.output_of(script)? != script::output_of(script))
}

/// Cuts down a script on which the two differ.
fn shortest(program: &Program, script: &[u8]) -> io::Result<Difference> {
    let shrinker = Shrinker::new(|lines| differs(program, &lines::join(lines)));
    let lines = cut_after_difference(program, lines::split(script))?;
    let script = lines::join(&shrinker.shortest(lines, lines::simpler)?);
    Ok(Difference {
        reference: script::output_of(&script),
        program: program.output_of(&script)?,
        input: script,
    })
}

/// Leaves out what stands after the line whose output differs first.
fn cut_after_difference(program: &Program, lines: Vec<Vec<u8>>) -> io::Result<Vec<Vec<u8>>> {
    let script = lines::join(&lines);
    let expected = script::output_of(&script);
    let output = program.output_of(&script)?;
    let same = expected.iter().zip(&output).take_while(|(a, b)| a == b);
    let same = same.count();
    let answered = expected[..same].iter().filter(|b| **b == b'\n').count();
    let prints = |line: &Vec<u8>| !matches!(script::parse(line), Item::Blank | Item::Comment);
    let speaking = lines.iter().enumerate().filter(|(_, line)| prints(line));
    let last = speaking.map(|(place, _)| place).nth(answered);
    let cut = match last {
        Some(place) => lines[..=place].to_vec(),
        None => lines.clone(),
    };
    Ok(if differs(program, &lines::join(&cut))? { cut } else { lines })
}
