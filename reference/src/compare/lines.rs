//! The lines of a script, and simpler ones in their place.

use super::shrink::without_chunks;
use crate::script::{self, Item};
use crate::show::{self, Argument};

/// The lines of a script, without their newlines.
pub fn split(script: &[u8]) -> Vec<Vec<u8>> {
    let text = script.strip_suffix(b"\n").unwrap_or(script);
    text.split(|byte| *byte == b'\n').map(<[u8]>::to_vec).collect()
}

pub fn join(lines: &[Vec<u8>]) -> Vec<u8> {
    lines.iter().flat_map(|line| [line, &b"\n"[..]].concat()).collect()
}

/// Lines of the same call with one argument made simpler, the boldest first.
pub fn simpler(line: &[u8]) -> Vec<Vec<u8>> {
    let Item::Call(call) = script::parse(line) else {
        return Vec::new();
    };
    let word = show::word(&call);
    let arguments = show::arguments(&call);
    let mut lists: Vec<Vec<Argument>> = Vec::new();
    if word == "setgroups" {
        lists.extend(without_chunks(&arguments[1..]).into_iter().map(|ids| {
            let mut list = arguments[..1].to_vec();
            list.extend(ids);
            list
        }));
    }
    for (place, argument) in arguments.iter().enumerate() {
        for simpler in simpler_arguments(argument) {
            let mut list = arguments.clone();
            list[place] = simpler;
            lists.push(list);
        }
    }
    let plain = show::line(word, &arguments);
    let mut lines: Vec<Vec<u8>> = lists.iter().map(|list| show::line(word, list)).collect();
    if plain.len() < line.len() {
        lines.insert(0, plain);
    }
    lines
}

fn simpler_arguments(argument: &Argument) -> Vec<Argument> {
    match argument {
        Argument::Number(number) => [0, 1, 2, number / 2]
            .into_iter()
            .filter(|simpler| simpler < number)
            .map(Argument::Number)
            .collect(),
        Argument::Text(text) => without_chunks(text).into_iter().map(Argument::Text).collect(),
    }
}
