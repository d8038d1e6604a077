//! The text form of calls and answers, sentence by sentence.

use reference::id_map::NO_ID;
use reference::script::{output_of, parse, Item, Malformed, MAX_LINE};
use reference::{show, Answer, Call, Kind};

fn malformed(line: &[u8]) -> Malformed {
    match parse(line) {
        Item::Malformed(kind) => kind,
        other => panic!("{:?} is {other:?}", line.escape_ascii().to_string()),
    }
}

fn text(quoted: &[u8]) -> Vec<u8> {
    match parse(&[b"write-uid-map 1 2 ", quoted].concat()) {
        Item::Call(Call::WriteMap { text, .. }) => text,
        other => panic!("{other:?}"),
    }
}

#[test]
fn spaces_do_not_count() {
    assert_eq!(parse(b"   setns   1    2   "), parse(b"setns 1 2"));
    assert_eq!(parse(b"  fresh "), Item::Fresh);
}

#[test]
fn some_lines_print_nothing() {
    assert_eq!(parse(b""), Item::Blank);
    assert_eq!(parse(b"   "), Item::Blank);
    assert_eq!(parse(b"# fork 1"), Item::Comment);
    assert_eq!(malformed(b"  # x"), Malformed::UnknownWord);
    assert_eq!(malformed(b"\t"), Malformed::UnknownWord);
    assert_eq!(output_of(b"\n\n# x\nfresh\n\nfork 1"), b"fresh\nchild 2\n");
    assert_eq!(output_of(b""), b"");
}

#[test]
fn fresh_starts_again() {
    assert_eq!(output_of(b"fork 1\nfresh\nfork 1\n"), b"child 2\nfresh\nchild 2\n");
}

#[test]
fn numbers_are_decimal_or_hexadecimal() {
    let fork = |number: &str| parse(format!("fork {number}").as_bytes());
    let caller = |caller| Item::Call(Call::Fork { caller });
    assert_eq!(fork("0x1F"), caller(31));
    assert_eq!(fork("0x00000000000000000001aB"), caller(0x1ab));
    assert_eq!(fork("0000000000000000000000000000012"), caller(12));
    assert_eq!(fork("18446744073709551615"), caller(u64::MAX));
    assert_eq!(fork("0xffffffffffffffff"), caller(u64::MAX));
    for number in ["18446744073709551616", "0x10000000000000000"] {
        assert_eq!(fork(number), Item::Malformed(Malformed::NumberTooLarge));
    }
    for number in ["-1", "+1", "0x", "0X1", "1a", "0xg", "\"1\"", "1\r", "1\t"] {
        assert_eq!(fork(number), Item::Malformed(Malformed::NotANumber));
    }
}

#[test]
fn ids_have_32_bits() {
    assert!(matches!(
        parse(b"setresuid 1 0xffffffff 4294967295 0"),
        Item::Call(Call::SetIds { kind: Kind::User, caller: 1, ids: [NO_ID, NO_ID, 0] })
    ));
    for line in [
        "setresuid 1 4294967296 0 0",
        "setgroups 1 0 4294967296",
        "capable 1 0 4294967296",
        "translate-uid-out 1 0 0x100000000",
        "read-uid-map 1 1 4294967296",
    ] {
        assert_eq!(malformed(line.as_bytes()), Malformed::NumberTooLarge);
    }
    assert!(matches!(
        parse(b"capset 18446744073709551615 0xffffffffffffffff 4294967296"),
        Item::Call(_)
    ));
}

#[test]
fn texts_have_escapes() {
    assert_eq!(text(br#""a\n\t\\\"\x4a\x4A\x00\xFf""#), b"a\n\t\\\"JJ\0\xff");
    assert_eq!(text(b"\" \t\x00\xff\r# \"  "), b" \t\x00\xff\r# ");
    assert_eq!(text(b"\"\""), b"");
    for (quoted, kind) in [
        (&b"\"\\q\""[..], Malformed::BadEscape),
        (b"\"\\N\"", Malformed::BadEscape),
        (b"\"\\x4\"", Malformed::BadEscape),
        (b"\"\\xg0\"", Malformed::BadEscape),
        (b"\"\\", Malformed::BadEscape),
        (b"\"abc", Malformed::MissingQuote),
        (b"\"abc\\\"", Malformed::MissingQuote),
        (b"\"abc\"x", Malformed::JunkAfterQuote),
        (b"\"abc\"\t", Malformed::JunkAfterQuote),
        (b"\"abc\"\"", Malformed::JunkAfterQuote),
        (b"abc", Malformed::NotAText),
        (b"x\"abc\"", Malformed::NotAText),
        (b"\"abc\" 1", Malformed::TooManyArguments),
        (b"", Malformed::TooFewArguments),
    ] {
        let line = [b"write-setgroups 1 2 ", quoted].concat();
        assert_eq!(malformed(&line), kind);
    }
    assert_eq!(malformed(b"write-uid-map 1 2\"x\""), Malformed::NotANumber);
}

#[test]
fn other_lines_are_malformed() {
    assert_eq!(malformed(b"Fork 1"), Malformed::UnknownWord);
    assert_eq!(malformed(b"fork\t1"), Malformed::UnknownWord);
    assert_eq!(malformed(b"fork"), Malformed::TooFewArguments);
    assert_eq!(malformed(b"fork 1 2"), Malformed::TooManyArguments);
    assert_eq!(malformed(b"fresh 1"), Malformed::FreshWithArguments);
    assert_eq!(malformed(b"setgroups"), Malformed::TooFewArguments);
    assert_eq!(malformed(b"read-uid-map 1 1 65537"), Malformed::BufferTooLong);
    assert!(matches!(parse(b"read-uid-map 1 1 65536"), Item::Call(_)));
    let ids = |count| [&b"setgroups 1"[..], &b" 7".repeat(count)].concat();
    assert_eq!(malformed(&ids(1_001)), Malformed::TooManyIds);
    assert!(matches!(parse(&ids(1_000)), Item::Call(_)));
    assert!(matches!(parse(&ids(0)), Item::Call(_)));
    assert_eq!(output_of(b"fork 1 2\nfork 1\n"), b"malformed\nchild 2\n");
}

#[test]
fn a_line_has_a_longest_length() {
    let padded = |start: &str, length| {
        let mut line = start.as_bytes().to_vec();
        line.resize(length, b' ');
        line
    };
    for start in ["fork 1", "#", "", "fresh"] {
        assert_eq!(malformed(&padded(start, MAX_LINE + 1)), Malformed::LineTooLong);
    }
    for end in ["", "\n"] {
        let fits = [padded("fork 1", MAX_LINE), end.into()].concat();
        assert_eq!(output_of(&fits), b"child 2\n");
        let over = [padded("fork 1", MAX_LINE + 1), end.into()].concat();
        assert_eq!(output_of(&over), b"malformed\n");
    }
    let far_over = [padded("fork 1", 1_000_000), b"\nfork 1".to_vec()].concat();
    assert_eq!(output_of(&far_over), b"malformed\nchild 2\n");
}

#[test]
fn answers_have_their_forms() {
    let form = |answer: Answer| String::from_utf8(show::answer(&answer)).expect("ASCII");
    assert_eq!(form(Answer::Done), "done");
    assert_eq!(form(Answer::Child(2)), "child 2");
    let answer = Answer::ChildInNamespace { child: 3, namespace: 1 };
    assert_eq!(form(answer), "child 3 namespace 1");
    assert_eq!(form(Answer::Namespace(1)), "namespace 1");
    assert_eq!(form(Answer::Yes), "yes");
    assert_eq!(form(Answer::No), "no");
    assert_eq!(form(Answer::Id(165535)), "id 165535");
    assert_eq!(form(Answer::Unmapped), "unmapped");
    let answer = Answer::Length { length: 3, buffer: (0..=255).collect() };
    let shown = form(answer);
    assert!(shown.starts_with(r#"length 3 "\x00\x01\x02\x03\x04\x05\x06\x07\x08\t\n\x0b"#));
    assert!(shown.contains(r##"\x1f !\"#$"##) && shown.contains(r"[\\]"));
    assert!(shown.contains(r"}~\x7f\x80") && shown.ends_with(r#"\xfe\xff""#));
}

#[test]
fn a_shown_call_reads_back() {
    for line in [
        "fork 1",
        "clone 2",
        "unshare 3",
        "setns 1 18446744073709551615",
        r#"write-uid-map 1 2 "0 0 1\n\t\x00\xff\\\"""#,
        r#"write-gid-map 1 2 """#,
        r#"write-setgroups 1 2 "deny""#,
        "read-uid-map 1 2 33",
        "read-gid-map 1 2 0",
        "read-setgroups 1 2 65536",
        "setresuid 1 2 3 4294967295",
        "setresgid 1 2 3 4",
        "setgroups 1",
        "setgroups 1 2 2 3",
        "capable 1 2 3",
        "capset 1 18446744073709551615 0",
        "getids 1",
        "translate-uid-out 1 2 3",
        "translate-uid-back 1 2 3",
        "translate-gid-out 1 2 3",
        "translate-gid-back 1 2 3",
    ] {
        let Item::Call(call) = parse(line.as_bytes()) else {
            panic!("{line} is no call");
        };
        assert_eq!(String::from_utf8_lossy(&show::call(&call)), line);
    }
}
