//! What the manual user_namespaces(7) shows by example.

mod common;

use common::{check, check_member};

#[test]
fn the_initial_map() {
    check(
        r#"
        read-uid-map 1 1 33 => length 33 "         0          0 4294967295\n"
        read-gid-map 1 1 33 => length 33 "         0          0 4294967295\n"
        read-setgroups 1 1 6 => length 6 "allow\n"
        "#,
    );
}

#[test]
fn userns_child_exec() {
    check(
        r#"
        fork 1 => child 2
        setresgid 2 1000 1000 1000 => done
        setresuid 2 1000 1000 1000 => done
        clone 2 => child 3 namespace 1
        getids 3 => uid 65534 65534 65534 gid 65534 65534 65534 groups
        write-uid-map 2 3 "0 1000 1" => done
        write-setgroups 2 3 "deny" => done
        write-gid-map 2 3 "0 1000 1" => done
        getids 3 => uid 0 0 0 gid 0 0 0 groups
        capset 3 0x1fffffffff 0x1fffffffff => done
        capable 3 1 36 => yes
        capable 3 0 36 => no
        read-setgroups 3 3 5 => length 5 "deny\n"
        "#,
    );
}

#[test]
fn field_two_depends_on_the_reader() {
    check(
        r#"
        clone 1 => child 2 namespace 1
        write-uid-map 1 2 "0 100000 65536\n100000 0 2" => done
        write-gid-map 1 2 "0 100000 65536\n100000 0 2" => done
        clone 2 => child 3 namespace 2
        write-uid-map 2 3 "5 10 7" => done
        read-uid-map 3 3 33 => length 33 "         5         10          7\n"
        read-uid-map 2 3 33 => length 33 "         5         10          7\n"
        read-uid-map 1 3 33 => length 33 "         5     100010          7\n"
        read-uid-map 3 2 66 => length 66 "         0 4294967295      65536\n    100000 4294967295          2\n"
        read-uid-map 3 1 34 => length 33 "         0 4294967295 4294967295\n."
        read-uid-map 2 1 33 => length 33 "         0     100000 4294967295\n"
        read-gid-map 3 3 3 => length 0 "..."
        "#,
    );
}

#[test]
fn deny_and_allow() {
    check(
        r#"
        clone 1 => child 2 namespace 1
        write-setgroups 2 2 "allow" => done
        write-setgroups 2 2 "deny\n" => done
        write-setgroups 2 2 "deny" => done
        write-setgroups 2 2 "allow\n" => refused 1 EPERM
        write-setgroups 1 2 "allow" => refused 1 EPERM
        write-uid-map 1 2 "0 0 10" => done
        write-gid-map 1 2 "0 0 10" => done
        write-setgroups 2 2 "deny" => refused 1 EPERM
        clone 2 => child 3 namespace 2
        read-setgroups 1 3 5 => length 5 "deny\n"
        write-setgroups 3 3 "allow" => refused 1 EPERM
        write-setgroups 1 1 "deny" => refused 1 EPERM
        write-setgroups 1 1 "allow" => done
        write-setgroups 2 1 "allow" => refused 1 EPERM
        "#,
    );
}

#[test]
fn id_changes_need_a_map() {
    check(
        r#"
        clone 1 => child 2 namespace 1
        setresuid 2 0 0 0 => refused 22 EINVAL
        setresgid 2 0 4294967295 4294967295 => refused 22 EINVAL
        setgroups 2 => refused 1 EPERM
        setresuid 2 4294967295 4294967295 4294967295 => done
        capable 2 1 7 => yes
        "#,
    );
}

#[test]
fn unmapped_ids_show_as_65534() {
    check_member(
        r#"
        getids 2 => uid 65534 65534 65534 gid 65534 65534 65534 groups
        write-uid-map 2 2 "0 1000 1" => done
        getids 2 => uid 0 0 0 gid 65534 65534 65534 groups
        "#,
    );
}
