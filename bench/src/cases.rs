//! The calls that are timed, each with its state, its goal and the kernel's own call where there is one.

use std::hint::black_box;

use oarhatchet::{Kind, Way, CAP_SYS_ADMIN};
use reference::random::Random;
use reference::{Answer, Call, Direction};

use crate::kernel;
use crate::measure::time;
use crate::state::{self, State, FIVE_BELOW, FIVE_LINES, FULL, ONE_LINE};
use crate::table::{Kernel, Row};

/// Goals in nanoseconds: of a call, of a read or write of a map, and of a translation through at most eight levels.
const CALL: f64 = 200.0;
const MAP: f64 = 1000.0;
const TRANSLATION: f64 = 100.0;

/// Calls in a batch, where a call can be repeated in the state that it leaves.
const REPEATED: usize = 500;
/// Calls in a batch, where each has a process or a namespace of its own.
pub const ONCE: usize = 32;

/// The root of the first namespace of the common state, and that namespace.
const ROOT: u64 = 2;
const NAMESPACE: u64 = 1;
/// The bytes of five lines of a map that is read, and of the setgroups setting with some to spare.
const MAP_BUFFER: usize = 5 * 33;
const SETTING_BUFFER: usize = 8;
/// The deepest level that there is.
pub const LAST_LEVEL: u64 = 32;
/// The kinds of IDs, as the bindings and as the reference program name them.
pub const USERS: (Kind, reference::Kind) = (Kind::User, reference::Kind::User);
pub const GROUPS: (Kind, reference::Kind) = (Kind::Group, reference::Kind::Group);

/// Times one call on both implementations. `calls` are those of a batch, and `call` makes the one of a number through
/// the bindings and answers whether it is done.
fn row(
    name: &str,
    goal: f64,
    state: &State,
    kernel: Kernel,
    calls: Vec<Call>,
    call: impl Fn(&mut oarhatchet::Tables, usize) -> bool,
) -> Row {
    // Both answer each call of the batch alike.
    let mut copy = state.clone();
    for call in &calls {
        copy.make(call.clone());
    }
    let archive = time(&state.tables, calls.len(), call);
    let archive = archive.unwrap_or_else(|| panic!("{name} is refused"));
    let reference = time(&state.reference, calls.len(), |tables, index| {
        let answer = tables.answer(&calls[index]);
        !matches!(black_box(answer), Answer::Refused(_) | Answer::ReadRefused { .. })
    });
    Row {
        name: name.to_string(),
        archive,
        range: (archive, archive),
        reference: reference.unwrap_or_else(|| panic!("{name} is refused")),
        kernel,
        goal,
    }
}

fn repeated(call: Call) -> Vec<Call> {
    vec![call; REPEATED]
}

/// A call for each of the names.
fn for_each(names: &[u64], call: impl Fn(u64) -> Call) -> Vec<Call> {
    names.iter().map(|name| call(*name)).collect()
}

pub fn rows() -> Vec<Row> {
    let mut rows = processes();
    rows.extend(writes());
    rows.extend(reads());
    rows.extend(credentials());
    rows.extend(questions());
    let (last, any) = (Ids::LastLine, Ids::AnyLine);
    rows.extend(translations(1, "1 level", last, TRANSLATION));
    rows.extend(translations(8, "8 levels", last, TRANSLATION));
    rows.extend(translations(8, "8 levels, IDs of any line", any, TRANSLATION));
    rows.extend(translations(LAST_LEVEL, "32 levels", last, CALL));
    rows
}

/// The state with forks of the caller, and these.
pub fn with_forks(mut state: State, caller: u64) -> (State, Vec<u64>) {
    let forks = (0..ONCE).map(|_| state.fork(caller)).collect();
    (state, forks)
}

pub fn fork(name: &str, state: &State, caller: u64, kernel: Kernel) -> Row {
    let calls = vec![Call::Fork { caller }; ONCE];
    row(name, CALL, state, kernel, calls, |t, _| t.fork(caller).is_ok())
}

pub fn clone(name: &str, state: &State, caller: u64, kernel: Kernel) -> Row {
    let calls = vec![Call::Clone { caller }; ONCE];
    row(name, CALL, state, kernel, calls, |t, _| t.clone_process(caller).is_ok())
}

pub fn unshare(name: &str, state: &State, callers: &[u64], kernel: Kernel) -> Row {
    let calls = for_each(callers, |caller| Call::Unshare { caller });
    row(name, CALL, state, kernel, calls, |t, i| t.unshare(callers[i]).is_ok())
}

pub fn setns(name: &str, state: &State, callers: &[u64], namespace: u64, kernel: Kernel) -> Row {
    let calls = for_each(callers, |caller| Call::Setns { caller, namespace });
    row(name, CALL, state, kernel, calls, |t, i| t.setns(callers[i], namespace).is_ok())
}

fn processes() -> Vec<Row> {
    let common = State::common();
    let (forked, members) = with_forks(common.clone(), ROOT);
    let (joining, outside) = with_forks(common.clone(), 1);
    vec![
        fork("fork", &common, ROOT, Kernel::of(kernel::fork_process())),
        clone("clone", &common, ROOT, Kernel::of(kernel::clone_process())),
        unshare("unshare", &forked, &members, Kernel::of(kernel::unshare_user())),
        setns("setns", &joining, &outside, NAMESPACE, Kernel::of(kernel::join())),
    ]
}

/// The state with new namespaces below the caller's, and the process in each.
pub fn with_unmapped(mut state: State, caller: u64) -> (State, Vec<u64>) {
    let members = (0..ONCE).map(|_| state.clone_process(caller).0).collect();
    (state, members)
}

pub fn write_map(
    name: &str,
    state: &State,
    caller: u64,
    members: &[u64],
    text: &str,
    kernel: Kernel,
) -> Row {
    let calls = for_each(members, |process| Call::WriteMap {
        kind: reference::Kind::User,
        caller,
        process,
        text: text.as_bytes().to_vec(),
    });
    row(name, MAP, state, kernel, calls, |t, i| {
        t.write_map(Kind::User, caller, members[i], text.as_bytes()).is_ok()
    })
}

pub fn write_setgroups(
    name: &str,
    state: &State,
    caller: u64,
    members: &[u64],
    kernel: Kernel,
) -> Row {
    let calls = for_each(members, |process| Call::WriteSetgroups {
        caller,
        process,
        text: b"deny".to_vec(),
    });
    row(name, CALL, state, kernel, calls, |t, i| {
        t.write_setgroups(caller, members[i], b"deny").is_ok()
    })
}

fn writes() -> Vec<Row> {
    let (common, members) = with_unmapped(State::common(), 1);
    let (deep, below) = with_unmapped(State::deep(8), 9);
    let one = Kernel::of(kernel::write_map(ONE_LINE));
    let five = Kernel::of(kernel::write_map(FIVE_LINES));
    let setting = Kernel::of(kernel::write_setgroups());
    vec![
        write_map("write_map, 1 line", &common, 1, &members, ONE_LINE, one),
        write_map("write_map, 5 lines", &common, 1, &members, FIVE_LINES, five),
        write_map("write_map, 5 lines, level 9", &deep, 9, &below, FIVE_BELOW, Kernel::None),
        write_setgroups("write_setgroups", &common, 1, &members, setting),
    ]
}

pub fn read_map(name: &str, state: &State, caller: u64, process: u64, kernel: Kernel) -> Row {
    let buffer = vec![0; MAP_BUFFER];
    let call = Call::ReadMap { kind: reference::Kind::User, caller, process, buffer };
    row(name, MAP, state, kernel, repeated(call), |t, _| {
        let mut buffer = [0; MAP_BUFFER];
        let done = t.read_map(Kind::User, caller, process, &mut buffer).is_ok();
        black_box(buffer);
        done
    })
}

pub fn read_setgroups(name: &str, state: &State, caller: u64, process: u64, kernel: Kernel) -> Row {
    let call = Call::ReadSetgroups { caller, process, buffer: vec![0; SETTING_BUFFER] };
    row(name, CALL, state, kernel, repeated(call), |t, _| {
        let mut buffer = [0; SETTING_BUFFER];
        let done = t.read_setgroups(caller, process, &mut buffer).is_ok();
        black_box(buffer);
        done
    })
}

fn reads() -> Vec<Row> {
    let common = State::common();
    let one = Kernel::of(kernel::read_map(ONE_LINE));
    let five = Kernel::of(kernel::read_map(FIVE_LINES));
    let setting = Kernel::of(kernel::read_setgroups());
    vec![
        read_map("read_map, 1 line", &common, 1, ROOT, one),
        read_map("read_map, 5 lines", &State::deep(1), 1, 2, five),
        read_map("read_map, 5 lines, level 8, from level 8", &State::deep(8), 9, 9, Kernel::None),
        read_setgroups("read_setgroups", &common, 1, ROOT, setting),
    ]
}

/// Root's IDs, with a saved one that is another at each call.
fn saved_changes(index: usize) -> [u32; 3] {
    [0, 0, kernel::saved(index)]
}

/// ID changes, each to the IDs of its number in the batch.
pub fn set_ids(
    name: &str,
    state: &State,
    kinds: (Kind, reference::Kind),
    caller: u64,
    ids: impl Fn(usize) -> [u32; 3],
    kernel: Kernel,
) -> Row {
    let call = |index| Call::SetIds { kind: kinds.1, caller, ids: ids(index) };
    let calls = (0..REPEATED).map(call).collect();
    row(name, CALL, state, kernel, calls, |t, i| t.set_ids(kinds.0, caller, ids(i)).is_ok())
}

pub fn set_groups(name: &str, state: &State, caller: u64, groups: &[u32], kernel: Kernel) -> Row {
    let call = Call::Setgroups { caller, groups: groups.to_vec() };
    row(name, CALL, state, kernel, repeated(call), |t, _| t.setgroups(caller, groups).is_ok())
}

pub fn capset(name: &str, state: &State, caller: u64, kernel: Kernel) -> Row {
    let call = Call::Capset { caller, permitted: FULL, effective: FULL };
    row(name, CALL, state, kernel, repeated(call), |t, _| t.capset(caller, FULL, FULL).is_ok())
}

fn credentials() -> Vec<Row> {
    let common = State::common();
    let deep = State::deep(8);
    let users = Kernel::of(kernel::set_users());
    let groups = Kernel::of(kernel::set_groups());
    let four = [10, 11, 12, 13];
    let sixteen = state::sixteen_groups();
    let supplementary = Kernel::of(kernel::set_supplementary(&four));
    vec![
        set_ids("setresuid", &common, USERS, ROOT, saved_changes, users),
        set_ids("setresgid", &common, GROUPS, ROOT, saved_changes, groups),
        set_ids("setresuid, 8 levels", &deep, USERS, 9, saved_changes, Kernel::None),
        set_groups("setgroups, 4 groups", &common, ROOT, &four, supplementary),
        set_groups("setgroups, 16 groups, 8 levels", &deep, 9, &sixteen, Kernel::None),
        capset("capset", &common, ROOT, Kernel::of(kernel::set_capabilities())),
    ]
}

pub fn own_ids(name: &str, state: &State, caller: u64, kernel: Kernel) -> Row {
    row(name, CALL, state, kernel, repeated(Call::GetIds { caller }), |t, _| {
        black_box(t.getids(caller)).is_ok()
    })
}

pub fn capable(name: &str, state: &State, namespace: u64) -> Row {
    let call = Call::Capable { caller: 1, namespace, number: CAP_SYS_ADMIN };
    row(name, CALL, state, Kernel::None, repeated(call), |t, _| {
        black_box(t.capable(1, namespace, CAP_SYS_ADMIN)).is_ok()
    })
}

fn questions() -> Vec<Row> {
    let common = State::common();
    let one_call = Kernel::of(kernel::own_users());
    let three_calls = Kernel::of(kernel::own_ids(&[10, 11, 12, 13]));
    vec![
        own_ids("getids, no groups", &common, 1, one_call),
        own_ids("getids, 4 groups", &common, ROOT, three_calls),
        own_ids("getids, 16 groups, 8 levels", &State::deep(8).with_own_ids(9), 9, Kernel::None),
        capable("capable, 1 level up", &common, NAMESPACE),
        capable("capable, 32 levels up", &State::deep(LAST_LEVEL), LAST_LEVEL),
    ]
}

/// IDs whose translation is timed: those of the last of the five lines at each level, or those of any line.
#[derive(Clone, Copy)]
enum Ids {
    LastLine,
    AnyLine,
}

/// The offsets within the mapped IDs that a batch translates.
fn offsets(ids: Ids) -> Vec<u32> {
    let mut random = Random::new(1);
    let offset = |_| match ids {
        Ids::LastLine => state::LAST_LINE_ID,
        Ids::AnyLine => random.below(u64::from(state::MAPPED_IDS)) as u32,
    };
    (0..REPEATED).map(offset).collect()
}

/// Translations at a depth, which the words name.
fn translations(levels: u64, words: &str, ids: Ids, goal: f64) -> Vec<Row> {
    let inside = offsets(ids);
    let kernel: Vec<u32> = inside.iter().map(|id| state::kernel_id(*id)).collect();
    let state = State::deep(levels);
    let row_of = |name: &str, way: Way, direction: Direction, ids: &[u32]| {
        let kind = reference::Kind::User;
        let call =
            |id: &u32| Call::Translate { kind, direction, caller: 1, namespace: levels, id: *id };
        let calls = ids.iter().map(call).collect();
        row(name, goal, &state, Kernel::None, calls, |t, i| {
            black_box(t.translate(Kind::User, way, 1, levels, ids[i])).is_ok()
        })
    };
    vec![
        row_of(&format!("translate out, {words}"), Way::Out, Direction::Out, &inside),
        row_of(&format!("translate back, {words}"), Way::Back, Direction::Back, &kernel),
    ]
}
