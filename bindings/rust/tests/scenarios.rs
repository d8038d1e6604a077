//! The scenarios of document 01 (its bench runs), in its order, and what the types of the bindings promise.

use std::error::Error;
use std::io;

use oarhatchet::Errno::{Eagain, Einval, Enospc, Eperm, Erange, Esrch, Eusers};
use oarhatchet::{Child, Errno, Kind, Tables, Way};
use oarhatchet::{CAP_LAST_CAP, CAP_SETGID, CAP_SETUID, CAP_SYS_ADMIN, NO_ID, OVERFLOW_ID};

/// The bytes of a line of a map that is read.
const LINE: usize = 33;
/// How many namespaces and processes there may be, and how many levels.
const NAMESPACES: u64 = 64;
const PROCESSES: u64 = 128;
const LEVELS: u64 = 32;
/// The most supplementary groups of a process.
const MAX_GROUPS: usize = 16;

/// Process 2 is a fork of 1, set to group 1000 and then user 1000, and is in namespace 1, which it made.
fn member() -> Tables {
    let mut tables = Tables::new();
    assert_eq!(tables.fork(1), Ok(2));
    assert_eq!(tables.set_ids(Kind::Group, 2, [1000; 3]), Ok(()));
    assert_eq!(tables.set_ids(Kind::User, 2, [1000; 3]), Ok(()));
    assert_eq!(tables.unshare(2), Ok(1));
    tables
}

/// What a first write of the user map of namespace 1 answers.
fn first_write(caller: u64, text: &str) -> Result<(), Errno> {
    member().write_map(Kind::User, caller, 2, text.as_bytes())
}

#[test]
fn a_member_maps_itself_once() {
    let mut tables = member();
    assert_eq!(tables.write_map(Kind::User, 2, 2, b"0 1000 1"), Ok(()));
    let text = "         0       1000          1\n";
    assert_eq!(tables.map_text(Kind::User, 2, 2).as_deref(), Ok(text));
    let mut buffer = [b'.'; 40];
    assert_eq!(tables.read_map(Kind::User, 2, 2, &mut buffer), Ok(LINE));
    assert_eq!(&buffer[..LINE], text.as_bytes());
    assert_eq!(&buffer[LINE..], b".......");
    assert_eq!(tables.write_map(Kind::User, 2, 2, b"0 1000 1"), Err(Eperm));
}

#[test]
fn a_member_maps_nothing_else() {
    assert_eq!(first_write(2, "0 1000 2"), Err(Eperm));
    assert_eq!(first_write(2, "5 1001 1"), Err(Eperm));
}

#[test]
fn a_member_maps_its_group_after_deny() {
    let mut tables = member();
    assert_eq!(tables.write_map(Kind::Group, 2, 2, b"0 1000 1"), Err(Eperm));
    assert_eq!(tables.write_setgroups(2, 2, b"deny"), Ok(()));
    assert_eq!(tables.write_map(Kind::Group, 2, 2, b"0 1000 1"), Ok(()));
    assert_eq!(tables.setgroups(2, &[0]), Err(Eperm));
    assert_eq!(tables.setgroups(2, &[]), Err(Eperm));
    assert_eq!(tables.setgroups_text(2, 2).as_deref(), Ok("deny\n"));
}

#[test]
fn the_parent_maps_a_range() {
    let mut tables = member();
    assert_eq!(tables.write_map(Kind::User, 1, 2, b"0 100000 65536"), Ok(()));
    assert_eq!(tables.translate(Kind::User, Way::Out, 1, 1, 65535), Ok(Some(165535)));
    assert_eq!(tables.translate(Kind::User, Way::Out, 1, 1, 65536), Ok(None));
    assert_eq!(tables.translate(Kind::User, Way::Back, 1, 1, 165535), Ok(Some(65535)));
    assert_eq!(tables.translate(Kind::User, Way::Back, 1, 1, 165536), Ok(None));
    assert_eq!(tables.translate(Kind::Group, Way::Out, 1, 1, 65535), Ok(None));
}

#[test]
fn the_parent_maps_up_to_the_top() {
    assert_eq!(first_write(1, "0 0 4294967295"), Ok(()));
    for text in ["1 0 4294967295", "0 4294967295 1", "0 1000 0"] {
        assert_eq!(first_write(1, text), Err(Einval), "{text}");
    }
}

#[test]
fn lines_do_not_overlap() {
    assert_eq!(first_write(1, "0 100000 10\n10 100010 5"), Ok(()));
    assert_eq!(first_write(1, "0 100000 10\n5 200000 10"), Err(Einval));
    assert_eq!(first_write(1, "0 100000 10\n20 100009 5"), Err(Einval));
}

#[test]
fn an_unmapped_process_makes_no_namespace() {
    assert_eq!(member().unshare(2), Err(Eperm));
    assert_eq!(member().clone_process(2), Err(Eperm));
}

#[test]
fn the_owner_in_the_parent_holds_capabilities_and_joins() {
    let mut tables = member();
    assert_eq!(tables.capable(1, 1, CAP_SYS_ADMIN), Ok(true));
    assert_eq!(tables.capable(2, 0, CAP_SYS_ADMIN), Ok(false));
    // Processes 3 and 4 are in namespace 0 with empty sets, 3 with the owner's user ID and 4 with another.
    for (process, user) in [(3, 1000), (4, 1001)] {
        assert_eq!(tables.fork(1), Ok(process));
        assert_eq!(tables.set_ids(Kind::User, process, [user; 3]), Ok(()));
        assert_eq!(tables.capset(process, 0, 1), Err(Eperm));
        assert_eq!(tables.capable(process, 0, CAP_SYS_ADMIN), Ok(false));
    }
    assert_eq!(tables.capable(3, 1, CAP_SYS_ADMIN), Ok(true));
    assert_eq!(tables.capable(4, 1, CAP_SYS_ADMIN), Ok(false));
    assert_eq!(tables.setns(3, 1), Ok(()));
    assert_eq!(tables.setns(3, 0), Err(Eperm));
    assert_eq!(tables.setns(3, 1), Err(Einval));
}

#[test]
fn a_map_has_one_to_five_lines() {
    let lines = |count: u32| (0..count).map(|i| format!("{i} {} 1\n", i + 7)).collect::<String>();
    assert_eq!(first_write(1, &lines(5)), Ok(()));
    assert_eq!(first_write(1, &lines(6)), Err(Einval));
    assert_eq!(first_write(1, ""), Err(Einval));
    assert_eq!(first_write(1, "0 0 1\n\n1 1 1"), Err(Einval));
}

/// Goes down from process 1 with full maps; the process at each level has the next number.
fn descend(levels: u64) -> Tables {
    let mut tables = Tables::new();
    for level in 1..=levels {
        let child = Child { process: level + 1, namespace: level };
        assert_eq!(tables.clone_process(level), Ok(child));
        for kind in [Kind::User, Kind::Group] {
            assert_eq!(tables.write_map(kind, level, level + 1, b"0 0 4294967295"), Ok(()));
        }
    }
    tables
}

#[test]
fn levels_reach_32() {
    let last = Child { process: LEVELS + 1, namespace: LEVELS };
    assert_eq!(descend(LEVELS - 1).unshare(LEVELS), Ok(LEVELS));
    assert_eq!(descend(LEVELS - 1).clone_process(LEVELS), Ok(last));
    assert_eq!(descend(LEVELS).unshare(LEVELS + 1), Err(Eusers));
    assert_eq!(descend(LEVELS).clone_process(LEVELS + 1), Err(Eusers));
}

/// Makes a child of the process in a namespace of its own, with these maps and as the root of it.
fn nested(tables: &mut Tables, caller: u64, users: &str, groups: &str) -> u64 {
    let child = tables.clone_process(caller).expect("there is room").process;
    for (kind, text) in [(Kind::User, users), (Kind::Group, groups)] {
        tables.write_map(kind, caller, child, text.as_bytes()).expect("the map is good");
    }
    for kind in [Kind::Group, Kind::User] {
        tables.set_ids(kind, child, [0; 3]).expect("0 is mapped");
    }
    child
}

/// Two of the user lines at level 2 adjoin where the lines of level 1 do.
#[test]
fn translation_goes_through_levels() {
    let mut tables = Tables::new();
    let first = nested(&mut tables, 1, "0 100000 10\n10 200000 5\n", "0 100000 10\n10 200000 5\n");
    let second = nested(&mut tables, first, "0 2 4\n4 8 2\n6 10 2\n", "0 2 4\n4 10 4\n");
    nested(&mut tables, second, "0 5 1\n1 6 2\n", "0 5 3\n");
    let out = |kind, namespace, id| tables.translate(kind, Way::Out, 1, namespace, id);
    let back = |kind, namespace, id| tables.translate(kind, Way::Back, 1, namespace, id);
    let pairs = [
        (
            Kind::User,
            2,
            vec![(0, 100002), (3, 100005), (4, 100008), (5, 100009), (6, 200000), (7, 200001)],
        ),
        (Kind::Group, 2, vec![(0, 100002), (3, 100005), (4, 200000), (7, 200003)]),
        (Kind::User, 3, vec![(0, 100009), (1, 200000), (2, 200001)]),
        (Kind::Group, 3, vec![(0, 200001), (1, 200002), (2, 200003)]),
    ];
    for (kind, namespace, pairs) in pairs {
        for (inside, kernel) in pairs {
            assert_eq!(out(kind, namespace, inside), Ok(Some(kernel)));
            assert_eq!(back(kind, namespace, kernel), Ok(Some(inside)));
        }
    }
    for (kind, namespace, id) in
        [(Kind::User, 2, 8), (Kind::Group, 2, 8), (Kind::User, 3, 3), (Kind::Group, 3, 3)]
    {
        assert_eq!(out(kind, namespace, id), Ok(None));
    }
    let kernel = [
        (Kind::User, 2, 100006),
        (Kind::User, 2, 200002),
        (Kind::Group, 2, 100006),
        (Kind::Group, 2, 200004),
        (Kind::User, 3, 100008),
        (Kind::Group, 3, 200000),
    ];
    for (kind, namespace, id) in kernel {
        assert_eq!(back(kind, namespace, id), Ok(None));
    }
}

/// L6's example, and the whole second line with one ID more on either side.
#[test]
fn a_range_lies_whole_in_one_parent_line() {
    let mut tables = Tables::new();
    let lines = "0 100000 10\n10 100010 5\n";
    let root = nested(&mut tables, 1, lines, lines);
    let child = tables.clone_process(root).expect("there is room").process;
    for kind in [Kind::User, Kind::Group] {
        for text in ["0 8 4", "0 9 6", "0 10 6", "0 11 4\n4 9 2"] {
            assert_eq!(tables.write_map(kind, root, child, text.as_bytes()), Err(Eperm));
        }
    }
    assert_eq!(tables.write_map(Kind::User, root, child, b"0 8 2"), Ok(()));
    assert_eq!(tables.translate(Kind::User, Way::Out, 1, 2, 1), Ok(Some(100_009)));
    assert_eq!(tables.write_map(Kind::Group, root, child, b"0 10 5\n5 9 1"), Ok(()));
    assert_eq!(tables.translate(Kind::Group, Way::Out, 1, 2, 5), Ok(Some(100_009)));
}

#[test]
fn full_tables_refuse() {
    let mut tables = Tables::new();
    for namespace in 1..NAMESPACES {
        assert_eq!(tables.clone_process(1), Ok(Child { process: namespace + 1, namespace }));
    }
    assert_eq!(tables.clone_process(1), Err(Enospc));
    for child in NAMESPACES + 1..=PROCESSES {
        assert_eq!(tables.fork(1), Ok(child));
    }
    assert_eq!(tables.fork(1), Err(Eagain));
}

#[test]
fn own_ids_show_what_is_mapped() {
    let mut tables = Tables::new();
    assert_eq!(tables.setgroups(1, &[7, 100003]), Ok(()));
    assert_eq!(tables.clone_process(1), Ok(Child { process: 2, namespace: 1 }));
    assert_eq!(tables.write_map(Kind::User, 1, 2, b"0 0 1"), Ok(()));
    assert_eq!(tables.write_map(Kind::Group, 1, 2, b"0 100000 10"), Ok(()));
    let ids = tables.getids(2).expect("process 2 exists");
    assert_eq!((ids.users, ids.groups), ([0; 3], [OVERFLOW_ID; 3]));
    assert_eq!(ids.supplementary, [OVERFLOW_ID, 3]);
    assert_eq!(tables.setgroups(2, &[9; MAX_GROUPS]), Ok(()));
    assert_eq!(tables.getids(2).expect("process 2 exists").supplementary, [9; MAX_GROUPS]);
    assert_eq!(tables.setgroups(2, &[9; MAX_GROUPS + 1]), Err(Einval));
}

#[test]
fn drops_never_add() {
    let mut tables = Tables::new();
    assert_eq!(tables.capset(1, 1 << CAP_SETUID, 1 << CAP_SETUID), Ok(()));
    assert_eq!(tables.capset(1, 1 << CAP_SETGID, 0), Err(Eperm));
    assert_eq!(tables.capable(1, 0, CAP_SETUID), Ok(true));
    assert_eq!(tables.capable(1, 0, CAP_SETGID), Ok(false));
    assert_eq!(tables.capable(1, 0, CAP_LAST_CAP + 1), Err(Einval));
}

#[test]
fn empty_slices_are_lent() {
    let mut tables = member();
    assert_eq!(tables.read_map(Kind::User, 1, 2, &mut []), Ok(0));
    assert_eq!(tables.read_map(Kind::User, 1, 1, &mut []), Err(Erange));
    assert_eq!(tables.read_setgroups(1, 2, &mut []), Err(Erange));
    assert_eq!(tables.write_map(Kind::User, 1, 2, &[]), Err(Einval));
    assert_eq!(tables.write_setgroups(1, 2, &[]), Err(Einval));
    assert_eq!(tables.setgroups(1, &[]), Ok(()));
    assert_eq!(tables.fork(u64::MAX), Err(Esrch));
}

#[test]
fn a_clone_of_the_tables_is_apart() {
    let mut tables = member();
    let mut other = tables.clone();
    assert_eq!(tables.fork(1), Ok(3));
    assert_eq!(other.fork(1), Ok(3));
    assert_eq!(other.fork(1), Ok(4));
    other.clone_from(&Tables::default());
    assert_eq!(other.fork(1), Ok(2));
    assert_eq!(tables.fork(1), Ok(4));
}

#[test]
fn tables_go_to_other_threads() {
    fn shared<T: Send + Sync>(value: T) -> T {
        value
    }
    let tables = shared(member());
    std::thread::scope(|scope| {
        for _ in 0..2 {
            scope.spawn(|| assert_eq!(tables.capable(1, 1, CAP_SYS_ADMIN), Ok(true)));
        }
    });
}

#[test]
fn every_refusal_has_its_number() {
    let numbers: Vec<u32> = Errno::ALL.iter().map(|errno| errno.number()).collect();
    assert_eq!(numbers, [1, 3, 11, 22, 28, 34, 87]);
    let error: Box<dyn Error> = Box::new(Eusers);
    assert_eq!(error.to_string(), "EUSERS: level 33 asked for");
}

#[test]
fn a_refusal_is_an_error_of_the_system() {
    fn joined(tables: &mut Tables, caller: u64) -> io::Result<()> {
        tables.setns(caller, 0)?;
        Ok(())
    }
    let mut tables = member();
    let refusals = [(1, 22, io::ErrorKind::InvalidInput), (2, 1, io::ErrorKind::PermissionDenied)];
    for (caller, number, kind) in refusals {
        let error = joined(&mut tables, caller).expect_err("the call is refused");
        assert_eq!((error.raw_os_error(), error.kind()), (Some(number), kind));
    }
    for errno in Errno::ALL {
        let error = io::Error::from(*errno);
        assert_eq!(error.raw_os_error().map(i64::from), Some(i64::from(errno.number())));
    }
}

#[test]
fn no_id_is_never_mapped() {
    let tables = descend(1);
    for kind in [Kind::User, Kind::Group] {
        for way in [Way::Out, Way::Back] {
            assert_eq!(tables.translate(kind, way, 1, 1, NO_ID), Ok(None));
            assert_eq!(tables.translate(kind, way, 1, 1, NO_ID - 1), Ok(Some(NO_ID - 1)));
        }
    }
}
