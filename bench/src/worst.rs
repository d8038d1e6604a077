//! The calls in the worst states that calls can make. Namespaces go down to the last level, each with maps of five
//! lines, and every ID is in the last line at each level.

use reference::Call;

use crate::cases::{self, GROUPS, LAST_LEVEL, ONCE, USERS};
use crate::state::{self, State, LONG_LINES};
use crate::table::{Kernel, Row};

/// The process in the initial namespace, the one at level 31 and the one at level 32.
const OUTSIDE: u64 = 1;
const ABOVE: u64 = LAST_LEVEL;
const DEEPEST: u64 = LAST_LEVEL + 1;
/// The kernel is not measured in these states.
const NONE: Kernel = Kernel::None;

pub fn rows() -> Vec<Row> {
    let parts = [processes(), writes(), reads(), credentials(), questions()];
    parts.into_iter().flatten().collect()
}

/// What is made takes the last places, so that the tables are searched to their ends. Who joins owns no namespace, so
/// that its own set decides, after a walk over all levels.
fn processes() -> Vec<Row> {
    let last = State::worst(LAST_LEVEL - 1).with_places_left(ONCE as u64, OUTSIDE);
    let (forked, members) = cases::with_forks(last.clone(), ABOVE);
    let (joining, outside) = cases::with_forks(State::worst(LAST_LEVEL), OUTSIDE);
    vec![
        cases::fork("fork, last places, worst", &last, ABOVE, NONE),
        cases::clone("clone, last places, level 31, worst", &last, ABOVE, NONE),
        cases::unshare("unshare, last places, level 31, worst", &forked, &members, NONE),
        cases::setns("setns, 32 levels, worst", &joining, &outside, LAST_LEVEL, NONE),
    ]
}

fn writes() -> Vec<Row> {
    let (mut state, members) = cases::with_unmapped(State::worst(LAST_LEVEL - 1), ABOVE);
    // The writer is no longer the owner, so that its own set decides.
    state.set_ids(ABOVE, state::worst_ids(1));
    let (map, setting) =
        ("write_map, 5 lines, level 32, worst", "write_setgroups, 32 levels, worst");
    vec![
        cases::write_map(map, &state, ABOVE, &members, LONG_LINES, NONE),
        cases::write_setgroups(setting, &state, OUTSIDE, &members, NONE),
    ]
}

/// The map is read from within its namespace and from another one at the same level.
fn reads() -> Vec<Row> {
    let mut state = State::worst(LAST_LEVEL);
    let member = state.child_with_maps(ABOVE, LONG_LINES);
    vec![
        cases::read_map("read_map, 5 lines, level 32, worst", &state, member, member, NONE),
        cases::read_map("read_map, 5 lines, from beside, worst", &state, DEEPEST, member, NONE),
        cases::read_setgroups("read_setgroups, level 32, worst", &state, DEEPEST, member, NONE),
    ]
}

/// Without the capability, new IDs are compared with the present ones.
fn credentials() -> Vec<Row> {
    let state = State::worst(LAST_LEVEL);
    let mut bare = state.clone();
    bare.make(Call::Capset { caller: DEEPEST, permitted: 0, effective: 0 });
    let ids = state::worst_ids;
    let sixteen = state::sixteen_groups();
    vec![
        cases::set_ids("setresuid, level 32, worst", &state, USERS, DEEPEST, ids, NONE),
        cases::set_ids("setresuid, no SETUID, level 32, worst", &bare, USERS, DEEPEST, ids, NONE),
        cases::set_ids("setresgid, level 32, worst", &state, GROUPS, DEEPEST, ids, NONE),
        cases::set_ids("setresgid, no SETGID, level 32, worst", &bare, GROUPS, DEEPEST, ids, NONE),
        cases::set_groups("setgroups, 16 groups, level 32, worst", &state, DEEPEST, &sixteen, NONE),
        cases::capset("capset, level 32, worst", &state, DEEPEST, NONE),
    ]
}

fn questions() -> Vec<Row> {
    let state = State::worst(LAST_LEVEL);
    vec![
        cases::own_ids("getids, 16 groups, level 32, worst", &state, DEEPEST, NONE),
        cases::capable("capable, 32 levels up, worst", &state, LAST_LEVEL),
    ]
}
