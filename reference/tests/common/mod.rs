//! Runs a script with its expected output beside it.

use reference::script;

/// The member of namespace 1 that document 01's bench runs start from.
pub const MEMBER: &str = r#"
    fresh => fresh
    fork 1 => child 2
    setresgid 2 1000 1000 1000 => done
    setresuid 2 1000 1000 1000 => done
    unshare 2 => namespace 1
"#;

/// Checks a table with a line and its answer in each row, divided by `=>`.
pub fn check(table: &str) {
    let rows: Vec<(&str, &str)> = table
        .lines()
        .filter(|row| !row.trim().is_empty())
        .map(|row| row.rsplit_once(" => ").expect("a row has an arrow"))
        .collect();
    let calls: Vec<&str> = rows.iter().map(|row| row.0).collect();
    let output = script::output_of(calls.join("\n").as_bytes());
    let output = String::from_utf8(output).expect("output is ASCII");
    let answers: Vec<&str> = output.lines().collect();
    assert_eq!(answers.len(), rows.len());
    for ((call, expected), answer) in rows.iter().zip(answers) {
        assert_eq!(answer, *expected, "{call}");
    }
}

/// Checks a table whose first calls are those that make the member of namespace 1.
pub fn check_member(table: &str) {
    check(&format!("{MEMBER}{table}"));
}
