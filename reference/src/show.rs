//! The text form of answers and of calls, as a script prints and holds them.

use crate::answer::{Answer, Rule};
use crate::call::{Call, Direction};
use crate::id_map::Kind;

/// The line that an answer prints, without its newline.
pub fn answer(answer: &Answer) -> Vec<u8> {
    match answer {
        Answer::Done => b"done".to_vec(),
        Answer::Child(child) => format!("child {child}").into_bytes(),
        Answer::ChildInNamespace { child, namespace } => {
            format!("child {child} namespace {namespace}").into_bytes()
        }
        Answer::Namespace(namespace) => format!("namespace {namespace}").into_bytes(),
        Answer::Yes => b"yes".to_vec(),
        Answer::No => b"no".to_vec(),
        Answer::Id(id) => format!("id {id}").into_bytes(),
        Answer::Unmapped => b"unmapped".to_vec(),
        Answer::OwnIds { user, group, groups } => own_ids(user, group, groups).into_bytes(),
        Answer::Length { length, buffer } => {
            let mut line = format!("length {length} ").into_bytes();
            line.extend(quoted(buffer));
            line
        }
        Answer::Refused(rule) => refusal(*rule).into_bytes(),
        Answer::ReadRefused { rule, buffer } => {
            let mut line = refusal(*rule).into_bytes();
            line.push(b' ');
            line.extend(quoted(buffer));
            line
        }
    }
}

fn refusal(rule: Rule) -> String {
    let errno = rule.errno();
    format!("refused {} {}", errno.number(), errno.name())
}

fn own_ids(user: &[u32; 3], group: &[u32; 3], groups: &[u32]) -> String {
    let mut line = format!(
        "uid {} {} {} gid {} {} {} groups",
        user[0], user[1], user[2], group[0], group[1], group[2]
    );
    for id in groups {
        line += &format!(" {id}");
    }
    line
}

/// Bytes in double quotes, with the escapes of the text form.
pub fn quoted(bytes: &[u8]) -> Vec<u8> {
    let mut text = vec![b'"'];
    for byte in bytes {
        match byte {
            b'\n' => text.extend(b"\\n"),
            b'\t' => text.extend(b"\\t"),
            b'\\' => text.extend(b"\\\\"),
            b'"' => text.extend(b"\\\""),
            32..=126 => text.push(*byte),
            _ => text.extend(format!("\\x{byte:02x}").bytes()),
        }
    }
    text.push(b'"');
    text
}

/// An argument on a call's line.
#[derive(Clone, PartialEq, Eq, Debug)]
pub enum Argument {
    Number(u64),
    Text(Vec<u8>),
}

/// The line of a call, without its newline.
pub fn call(call: &Call) -> Vec<u8> {
    line(word(call), &arguments(call))
}

/// A line of a word and its arguments, without its newline.
pub fn line(word: &str, arguments: &[Argument]) -> Vec<u8> {
    let mut line = word.as_bytes().to_vec();
    for argument in arguments {
        line.push(b' ');
        match argument {
            Argument::Number(number) => line.extend(number.to_string().bytes()),
            Argument::Text(text) => line.extend(quoted(text)),
        }
    }
    line
}

/// The word that a call's line starts with.
pub fn word(call: &Call) -> &'static str {
    use Direction::{Back, Out};
    use Kind::{Group, User};
    match call {
        Call::Fork { .. } => "fork",
        Call::Clone { .. } => "clone",
        Call::Unshare { .. } => "unshare",
        Call::Setns { .. } => "setns",
        Call::WriteMap { kind: User, .. } => "write-uid-map",
        Call::WriteMap { kind: Group, .. } => "write-gid-map",
        Call::WriteSetgroups { .. } => "write-setgroups",
        Call::ReadMap { kind: User, .. } => "read-uid-map",
        Call::ReadMap { kind: Group, .. } => "read-gid-map",
        Call::ReadSetgroups { .. } => "read-setgroups",
        Call::SetIds { kind: User, .. } => "setresuid",
        Call::SetIds { kind: Group, .. } => "setresgid",
        Call::Setgroups { .. } => "setgroups",
        Call::Capable { .. } => "capable",
        Call::Capset { .. } => "capset",
        Call::GetIds { .. } => "getids",
        Call::Translate { kind, direction, .. } => match (kind, direction) {
            (User, Out) => "translate-uid-out",
            (User, Back) => "translate-uid-back",
            (Group, Out) => "translate-gid-out",
            (Group, Back) => "translate-gid-back",
        },
    }
}

/// The arguments on a call's line.
pub fn arguments(call: &Call) -> Vec<Argument> {
    match call {
        Call::Fork { caller }
        | Call::Clone { caller }
        | Call::Unshare { caller }
        | Call::GetIds { caller } => numbers(&[*caller]),
        Call::Setns { caller, namespace } => numbers(&[*caller, *namespace]),
        Call::WriteMap { caller, process, text, .. }
        | Call::WriteSetgroups { caller, process, text } => {
            let mut list = numbers(&[*caller, *process]);
            list.push(Argument::Text(text.clone()));
            list
        }
        Call::ReadMap { caller, process, buffer, .. }
        | Call::ReadSetgroups { caller, process, buffer } => {
            numbers(&[*caller, *process, buffer.len() as u64])
        }
        Call::SetIds { caller, ids, .. } => with_ids(*caller, ids),
        Call::Setgroups { caller, groups } => with_ids(*caller, groups),
        Call::Capable { caller, namespace, number } => {
            numbers(&[*caller, *namespace, u64::from(*number)])
        }
        Call::Capset { caller, permitted, effective } => {
            numbers(&[*caller, *permitted, *effective])
        }
        Call::Translate { caller, namespace, id, .. } => {
            numbers(&[*caller, *namespace, u64::from(*id)])
        }
    }
}

fn numbers(list: &[u64]) -> Vec<Argument> {
    list.iter().map(|number| Argument::Number(*number)).collect()
}

fn with_ids(caller: u64, ids: &[u32]) -> Vec<Argument> {
    let ids = ids.iter().map(|id| u64::from(*id));
    let list: Vec<u64> = std::iter::once(caller).chain(ids).collect();
    numbers(&list)
}
