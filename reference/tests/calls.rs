//! The rules of single calls that the scenarios do not reach.

mod common;

use common::{check, check_member};
use reference::id_map::MAX_TEXT;
use reference::{Answer, Call, Errno, Kind, Rule, Tables};

#[test]
fn the_caller_comes_first_and_then_the_named() {
    check(
        r#"
        setns 2 1 => refused 3 ESRCH
        setns 1 1 => refused 3 ESRCH
        capable 1 1 37 => refused 3 ESRCH
        capable 1 0 37 => refused 22 EINVAL
        capable 1 0 36 => yes
        write-uid-map 1 2 "" => refused 3 ESRCH
        write-uid-map 1 1 "" => refused 1 EPERM
        read-uid-map 0 1 3 => refused 3 ESRCH "..."
        read-setgroups 1 129 0 => refused 3 ESRCH ""
        translate-gid-back 1 64 0 => refused 3 ESRCH
        translate-gid-back 0 0 0 => refused 3 ESRCH
        fork 18446744073709551615 => refused 3 ESRCH
        fork 4294967297 => refused 3 ESRCH
        "#,
    );
}

#[test]
fn a_map_write_refuses_in_order() {
    let long = format!("{:<1$}", "0 0 1", MAX_TEXT + 1);
    let fits = &long[..MAX_TEXT];
    check_member(&format!(
        r#"
        fork 1 => child 3
        clone 3 => child 4 namespace 2
        write-uid-map 4 2 "" => refused 1 EPERM
        write-uid-map 1 2 "" => refused 22 EINVAL
        write-uid-map 1 2 "{long}" => refused 22 EINVAL
        write-uid-map 1 2 "{fits}" => done
        write-uid-map 1 2 "{long}" => refused 22 EINVAL
        write-uid-map 1 2 "x" => refused 1 EPERM
        capset 2 0x3f 0 => done
        write-gid-map 2 2 "x" => refused 1 EPERM
        capset 1 0 0 => done
        write-gid-map 1 4 "x" => refused 22 EINVAL
        write-gid-map 1 4 "0 5 1" => refused 1 EPERM
        write-gid-map 1 4 "0 0 1" => refused 1 EPERM
        write-setgroups 1 4 "deny" => done
        write-gid-map 1 4 "0 0 1" => done
        "#
    ));
}

#[test]
fn each_parent_side_lies_in_one_line() {
    let nested = r#"
        fresh => fresh
        clone 1 => child 2 namespace 1
        write-uid-map 1 2 "0 0 10\n10 500 10\n30 100 10" => done
        write-gid-map 1 2 "0 0 1" => done
        clone 2 => child 3 namespace 2
    "#;
    let write = |text: &str, answer: &str| {
        check(&format!("{nested}\nwrite-uid-map 2 3 \"{text}\" => {answer}"));
    };
    for text in ["0 0 10", "0 10 10", "0 30 10", "0 19 1", r"0 30 10\n10 0 10\n20 10 10"] {
        write(text, "done");
    }
    // Across lines that adjoin, across a gap, past an end, before a start, in no line.
    for text in ["0 0 20", "0 9 2", "0 15 20", "0 19 2", "0 29 2", "0 20 1"] {
        write(text, "refused 1 EPERM");
    }
    check(&format!(
        r#"{nested}
        write-uid-map 2 3 "100 5 10" => refused 1 EPERM
        write-uid-map 2 3 "105 10 5\n100 5 5" => done
        translate-uid-out 1 2 104 => id 9
        translate-uid-out 1 2 105 => id 500
        translate-uid-back 1 2 504 => id 109
        translate-uid-back 1 2 505 => unmapped
        "#
    ));
}

#[test]
fn user_ids_change_the_sets() {
    check(
        r#"
        fork 1 => child 2
        setresuid 2 4294967295 1000 4294967295 => done
        capable 2 0 7 => no
        setresuid 2 1001 4294967295 4294967295 => refused 1 EPERM
        setresuid 2 4294967295 0 4294967295 => done
        capable 2 0 7 => no
        capset 2 0x1fffffffff 0x1fffffffff => done
        capable 2 0 7 => yes
        setresuid 2 1000 0 1000 => done
        capable 2 0 7 => yes
        setresgid 2 5 6 7 => done
        getids 2 => uid 1000 0 1000 gid 5 6 7 groups
        setresuid 2 1000 1001 1002 => done
        capset 2 1 0 => refused 1 EPERM
        setresuid 2 1002 1000 1001 => done
        setresuid 2 1003 4294967295 4294967295 => refused 1 EPERM
        setresgid 2 7 7 5 => done
        setresgid 2 8 7 5 => refused 1 EPERM
        "#,
    );
}

#[test]
fn groups_replace_each_other() {
    let sixteen = "3 ".repeat(16);
    check(&format!(
        r#"
        setgroups 1 {sixteen} => done
        setgroups 1 {sixteen} 3 => refused 22 EINVAL
        setgroups 1 7 5 7 => done
        setgroups 1 1 4294967295 => refused 22 EINVAL
        getids 1 => uid 0 0 0 gid 0 0 0 groups 7 5 7
        clone 1 => child 2 namespace 1
        setgroups 2 => refused 1 EPERM
        write-gid-map 1 2 "0 7 1" => done
        getids 2 => uid 65534 65534 65534 gid 65534 65534 65534 groups 0 65534 0
        setgroups 2 0 1 => refused 22 EINVAL
        setgroups 2 => done
        getids 2 => uid 65534 65534 65534 gid 65534 65534 65534 groups
        "#
    ));
}

#[test]
fn drops_never_add() {
    check(
        r#"
        capset 1 0x3fffffffff 0 => refused 1 EPERM
        capset 1 0xff 0x100 => refused 1 EPERM
        capset 1 0xff 0x0f => done
        capable 1 0 3 => yes
        capable 1 0 4 => no
        capset 1 0x1ff 0 => refused 1 EPERM
        capset 1 0xff 0xff => done
        capable 1 0 4 => yes
        "#,
    );
}

#[test]
fn an_owner_counts_only_in_the_parent() {
    check(
        r#"
        clone 1 => child 2 namespace 1
        write-uid-map 1 2 "0 0 10" => done
        write-gid-map 1 2 "0 0 10" => done
        clone 1 => child 3 namespace 2
        clone 2 => child 4 namespace 3
        capset 1 0 0 => done
        capable 1 1 21 => yes
        capable 1 3 21 => yes
        capable 3 3 21 => no
        capable 3 1 21 => no
        capset 2 0 0 => done
        capable 2 3 21 => yes
        capable 2 1 21 => no
        capable 4 1 21 => no
        "#,
    );
}

#[test]
fn a_refusal_names_its_rule_and_changes_nothing() {
    let mut tables = Tables::initial();
    let before = tables.clone();
    let call = Call::WriteMap { kind: Kind::Group, caller: 1, process: 1, text: b"0 0 1".to_vec() };
    assert_eq!(tables.answer(&call), Answer::Refused(Rule::TargetInitial));
    let call = Call::ReadSetgroups { caller: 1, process: 1, buffer: b"abc".to_vec() };
    assert_eq!(
        tables.answer(&call),
        Answer::ReadRefused { rule: Rule::BufferShort, buffer: b"abc".to_vec() }
    );
    assert_eq!(Rule::BufferShort.errno(), Errno::Erange);
    assert_eq!(tables, before);
}
