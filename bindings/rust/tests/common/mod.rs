//! Makes the reference program's calls through the bindings, so that the answers of both can be compared.

use oarhatchet::{Errno, Kind, Tables, Way};
use reference::{Answer, Call, Direction};

/// What a call comes to: an answer that is no refusal, or a refusal's number with the buffer of a read after it.
#[derive(Clone, PartialEq, Eq, Debug)]
pub enum Outcome {
    Answer(Answer),
    Refused { number: u32, buffer: Vec<u8> },
}

/// The outcome on the reference program's tables.
pub fn outcome_on_reference(tables: &mut reference::Tables, call: &Call) -> Outcome {
    match tables.answer(call) {
        Answer::Refused(rule) => refused(rule.errno().number(), Vec::new()),
        Answer::ReadRefused { rule, buffer } => refused(rule.errno().number(), buffer),
        answer => Outcome::Answer(answer),
    }
}

/// The outcome on the tables of the archive.
pub fn outcome(tables: &mut Tables, call: &Call) -> Outcome {
    match call {
        Call::ReadMap { kind, caller, process, buffer } => {
            read(buffer, |b| tables.read_map(kind_of(*kind), *caller, *process, b))
        }
        Call::ReadSetgroups { caller, process, buffer } => {
            read(buffer, |b| tables.read_setgroups(*caller, *process, b))
        }
        _ => match answer(tables, call) {
            Ok(answer) => Outcome::Answer(answer),
            Err(errno) => refused(errno.number(), Vec::new()),
        },
    }
}

fn refused(number: u32, buffer: Vec<u8>) -> Outcome {
    Outcome::Refused { number, buffer }
}

fn read(lent: &[u8], read: impl FnOnce(&mut [u8]) -> Result<usize, Errno>) -> Outcome {
    let mut buffer = lent.to_vec();
    match read(&mut buffer) {
        Ok(length) => Outcome::Answer(Answer::Length { length, buffer }),
        Err(errno) => refused(errno.number(), buffer),
    }
}

/// Makes a call that is no read.
fn answer(tables: &mut Tables, call: &Call) -> Result<Answer, Errno> {
    match call {
        Call::Fork { caller } => tables.fork(*caller).map(Answer::Child),
        Call::Clone { caller } => tables
            .clone_process(*caller)
            .map(|c| Answer::ChildInNamespace { child: c.process, namespace: c.namespace }),
        Call::Unshare { caller } => tables.unshare(*caller).map(Answer::Namespace),
        Call::Setns { caller, namespace } => tables.setns(*caller, *namespace).map(done),
        Call::WriteMap { kind, caller, process, text } => {
            tables.write_map(kind_of(*kind), *caller, *process, text).map(done)
        }
        Call::WriteSetgroups { caller, process, text } => {
            tables.write_setgroups(*caller, *process, text).map(done)
        }
        Call::SetIds { kind, caller, ids } => {
            tables.set_ids(kind_of(*kind), *caller, *ids).map(done)
        }
        Call::Setgroups { caller, groups } => tables.setgroups(*caller, groups).map(done),
        Call::Capset { caller, permitted, effective } => {
            tables.capset(*caller, *permitted, *effective).map(done)
        }
        _ => question(tables, call),
    }
}

/// Asks what changes nothing and lends nothing.
fn question(tables: &Tables, call: &Call) -> Result<Answer, Errno> {
    match call {
        Call::Capable { caller, namespace, number } => tables
            .capable(*caller, *namespace, *number)
            .map(|yes| if yes { Answer::Yes } else { Answer::No }),
        Call::GetIds { caller } => tables.getids(*caller).map(|ids| Answer::OwnIds {
            user: ids.users,
            group: ids.groups,
            groups: ids.supplementary.to_vec(),
        }),
        Call::Translate { kind, direction, caller, namespace, id } => tables
            .translate(kind_of(*kind), way_of(*direction), *caller, *namespace, *id)
            .map(|id| id.map_or(Answer::Unmapped, Answer::Id)),
        _ => unreachable!("{call:?} is no question"),
    }
}

fn done(_: ()) -> Answer {
    Answer::Done
}

pub fn kind_of(kind: reference::Kind) -> Kind {
    match kind {
        reference::Kind::User => Kind::User,
        reference::Kind::Group => Kind::Group,
    }
}

pub fn way_of(direction: Direction) -> Way {
    match direction {
        Direction::Out => Way::Out,
        Direction::Back => Way::Back,
    }
}
