//! The journal of a script, and bytes as hexadecimal text.

use reference::hex;
use reference::journal::{journal_of, Why};
use reference::script::Malformed;

const CLONE: &[u8] = b"\x00\x09\x11\0\0\0\0\0\0\0\x01";
const FORK: &[u8] = b"\x00\x09\x10\0\0\0\0\0\0\0\x02";

#[test]
fn every_call_of_a_script_is_written() {
    let whole = [b"\x01", CLONE, FORK].concat();
    for script in [
        "clone 1\nfork 2\n",
        "clone 1\nfork 2",
        "\n# two calls\n   \n  clone   0x1\n#\nfork 2 \n\n",
    ] {
        assert_eq!(journal_of(script.as_bytes()), (whole.clone(), None));
    }
    assert_eq!(journal_of(b""), (b"\x01".to_vec(), None));
    // Refused calls and those that name nothing are written as any others.
    assert_eq!(journal_of(b"fork 2").0, [b"\x01", FORK].concat());
}

#[test]
fn a_line_that_is_no_call_ends_it() {
    let halts = |script: &str, line, why, said: &str| {
        let (journal, halt) = journal_of(script.as_bytes());
        assert_eq!(journal, [b"\x01", CLONE].concat());
        let halt = halt.expect("a line is no call");
        assert_eq!((halt.line, halt.why), (line, why));
        assert_eq!(halt.to_string(), said);
    };
    halts("clone 1\nfresh\nfork 2\n", 2, Why::Fresh, "line 2: a journal starts fresh");
    halts(
        "# x\nclone 1\n\nfork\nfork 2\n",
        4,
        Why::Malformed(Malformed::TooFewArguments),
        "line 4: malformed, too few arguments",
    );
    let (journal, halt) = journal_of(b"fresh\nclone 1");
    assert_eq!(journal, b"\x01");
    assert!(halt.is_some_and(|halt| halt.line == 1));
}

#[test]
fn the_longest_text_of_a_script_fits_a_record() {
    let script = format!("write-uid-map 1 1 \"{:>1$}\"", "", 65_536 - 20);
    let (journal, halt) = journal_of(script.as_bytes());
    assert_eq!((journal.len(), halt), (1 + 2 + 17 + 65_516, None));
}

#[test]
fn bytes_are_written_in_hexadecimal() {
    assert_eq!(
        hex::read("01 00fF # 02\n\n#\n 0a0B*3"),
        Ok(b"\x01\0\xff\x0a\x0b\x0a\x0b\x0a\x0b".to_vec())
    );
    assert_eq!(hex::read("30*0"), Ok(Vec::new()));
    for text in ["01\n1", "01\nxy", "\n*3", "\n30*", "\n30*-1", "#\n30*2*2 01", "\n01, 02", "\n+1"]
    {
        assert_eq!(hex::read(text), Err(2), "{text}");
    }
}

#[test]
fn a_shown_journal_reads_back() {
    let journal = [b"\x01", CLONE, FORK, b"\xff\xff", &[7; 100], b"\x08"].concat();
    let shown = hex::show(&journal);
    assert_eq!(hex::read(&shown), Ok(journal));
    assert!(shown.starts_with("01\n00 09 11 00 00 00 00 00 00 00 01\n00 09 10 "));
    assert!(shown.ends_with("\nff ff 07*100 08\n"));
}
