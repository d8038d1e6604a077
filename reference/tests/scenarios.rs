//! The scenarios of document 01 (its bench runs), in its order, and those of document 02.

mod common;

use common::{check, check_member};
use reference::tables::{MAX_LEVEL, MAX_NAMESPACES, MAX_PROCESSES};

#[test]
fn a_member_maps_itself_once() {
    check_member(
        r#"
        write-uid-map 2 2 "0 1000 1" => done
        read-uid-map 2 2 33 => length 33 "         0       1000          1\n"
        write-uid-map 2 2 "0 1000 1" => refused 1 EPERM
        "#,
    );
}

#[test]
fn a_member_maps_nothing_else() {
    check_member(r#"write-uid-map 2 2 "0 1000 2" => refused 1 EPERM"#);
    check_member(r#"write-uid-map 2 2 "5 1001 1" => refused 1 EPERM"#);
}

#[test]
fn a_member_maps_its_group_after_deny() {
    check_member(
        r#"
        write-gid-map 2 2 "0 1000 1" => refused 1 EPERM
        write-setgroups 2 2 "deny" => done
        write-gid-map 2 2 "0 1000 1" => done
        setgroups 2 0 => refused 1 EPERM
        "#,
    );
}

#[test]
fn the_parent_maps_a_range() {
    check_member(
        r#"
        write-uid-map 1 2 "0 100000 65536" => done
        translate-uid-out 1 1 65535 => id 165535
        translate-uid-back 1 1 165535 => id 65535
        translate-uid-out 1 1 65536 => unmapped
        translate-uid-back 1 1 165536 => unmapped
        "#,
    );
}

#[test]
fn the_parent_maps_up_to_the_top() {
    check_member(r#"write-uid-map 1 2 "0 0 4294967295" => done"#);
    for text in ["1 0 4294967295", "0 4294967295 1", "0 1000 0"] {
        check_member(&format!("write-uid-map 1 2 \"{text}\" => refused 22 EINVAL"));
    }
}

#[test]
fn lines_do_not_overlap() {
    check_member(r#"write-uid-map 1 2 "0 100000 10\n10 100010 5" => done"#);
    check_member(r#"write-uid-map 1 2 "0 100000 10\n5 200000 10" => refused 22 EINVAL"#);
    check_member(r#"write-uid-map 1 2 "0 100000 10\n20 100009 5" => refused 22 EINVAL"#);
}

#[test]
fn an_unmapped_process_makes_no_namespace() {
    check_member("unshare 2 => refused 1 EPERM");
    check_member("clone 2 => refused 1 EPERM");
}

#[test]
fn the_owner_in_the_parent_holds_capabilities() {
    check_member(
        r#"
        capable 1 1 21 => yes
        capable 2 0 21 => no
        fork 1 => child 3
        setresuid 3 1000 1000 1000 => done
        capset 3 0 1 => refused 1 EPERM
        capable 3 0 21 => no
        capable 3 1 21 => yes
        fork 1 => child 4
        setresuid 4 1001 1001 1001 => done
        capable 4 1 21 => no
        setns 3 1 => done
        setns 3 0 => refused 1 EPERM
        setns 3 1 => refused 22 EINVAL
        "#,
    );
}

#[test]
fn a_map_has_one_to_five_lines() {
    let lines = |count: u32| {
        let lines: Vec<String> = (0..count).map(|i| format!("{i} {} 1", i + 7)).collect();
        lines.join("\\n")
    };
    let write = |text: String, answer| {
        check_member(&format!("write-uid-map 1 2 \"{text}\" => {answer}"));
        check_member(&format!("write-gid-map 1 2 \"{text}\" => {answer}"));
    };
    write(lines(1), "done");
    write(lines(5), "done");
    write(lines(6), "refused 22 EINVAL");
    write(String::new(), "refused 22 EINVAL");
    write("0 0 1\\n\\n1 1 1".to_string(), "refused 22 EINVAL");
    write("0 0 1\\n\\n".to_string(), "refused 22 EINVAL");
}

/// Goes down from process 1 to the level given; the process there has the next number.
fn descend(levels: u64) -> String {
    let mut table = String::from("fresh => fresh\n");
    for level in 1..=levels {
        let child = level + 1;
        table += &format!("clone {level} => child {child} namespace {level}\n");
        for map in ["uid", "gid"] {
            table += &format!("write-{map}-map {level} {child} \"0 0 4294967295\" => done\n");
        }
    }
    table
}

#[test]
fn levels_reach_32() {
    let below = "uid 65534 65534 65534 gid 65534 65534 65534 groups";
    let last = u64::from(MAX_LEVEL);
    check(&(descend(last - 1) + &format!("unshare 32 => namespace 32\ngetids 32 => {below}")));
    check(&(descend(last) + "unshare 33 => refused 87 EUSERS\nclone 33 => refused 87 EUSERS"));
    check(&(descend(last) + "capable 1 32 0 => yes\ncapable 33 31 0 => no\nsetns 1 32 => done"));
}

/// Document 02, L6, with lines that end where the parent's line does, one later, and one ID before it starts.
#[test]
fn a_range_lies_whole_in_one_parent_line() {
    let lines = r"0 100000 10\n10 100010 5";
    check(&format!(
        r#"
        fresh => fresh
        clone 1 => child 2 namespace 1
        write-uid-map 1 2 "{lines}" => done
        write-gid-map 1 2 "{lines}" => done
        setresgid 2 0 0 0 => done
        setresuid 2 0 0 0 => done
        clone 2 => child 3 namespace 2
        write-uid-map 2 3 "0 8 4" => refused 1 EPERM
        write-uid-map 2 3 "0 0 15" => refused 1 EPERM
        write-uid-map 2 3 "0 10 6" => refused 1 EPERM
        write-uid-map 2 3 "0 9 6" => refused 1 EPERM
        write-uid-map 2 3 "0 8 2" => done
        translate-uid-out 1 2 1 => id 100009
        translate-uid-out 1 2 2 => unmapped
        write-gid-map 2 3 "0 11 4\n4 9 2" => refused 1 EPERM
        write-gid-map 2 3 "0 10 5\n5 0 10" => done
        translate-gid-out 1 2 4 => id 100014
        translate-gid-out 1 2 14 => id 100009
        "#
    ));
}

#[test]
fn full_tables_refuse() {
    let mut table = String::from("fresh => fresh\n");
    for name in 1..MAX_NAMESPACES {
        table += &format!("clone 1 => child {} namespace {name}\n", name + 1);
    }
    table += "clone 1 => refused 28 ENOSPC\nunshare 1 => refused 28 ENOSPC\n";
    for child in MAX_NAMESPACES + 1..=MAX_PROCESSES {
        table += &format!("fork 1 => child {child}\n");
    }
    table += "fork 1 => refused 11 EAGAIN\nclone 1 => refused 28 ENOSPC\n";
    table += "clone 2 => refused 1 EPERM\n";
    check(&table);
    let mut table = String::from("fresh => fresh\n");
    for child in 2..=MAX_PROCESSES {
        table += &format!("fork 1 => child {child}\n");
    }
    table += "clone 128 => refused 11 EAGAIN\nunshare 128 => namespace 1\n";
    check(&table);
}
