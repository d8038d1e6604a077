//! Lines as text: calls in odd but good forms, lines that print nothing, and malformed lines.

use super::Generator;
use crate::call::Call;
use crate::script::{MAX_IDS, MAX_LINE};
use crate::show::{self, Argument};

/// Words that no line starts with.
const UNKNOWN_WORDS: [&[u8]; 14] = [
    b"fokr",
    b"Fork",
    b"FORK",
    b"Fresh",
    b"fork,",
    b"exit",
    b"read",
    b"\tfork",
    b"fork\t1",
    b"\"fork\"",
    b"translate",
    b"translate-uid",
    b"write-pid-map",
    b"fresh\r",
];
/// Words in the place of a number that are none.
const NOT_NUMBERS: [&[u8]; 14] = [
    b"-1", b"+1", b"1a", b"0x", b"0X1", b"0xg", b"x1", b"1_0", b"1,", b"\"1\"", b"1\t", b"1\r",
    b"\xff", b"1.0",
];
/// Numbers that are too large for 64 bits.
const TOO_LARGE: [&[u8]; 5] = [
    b"18446744073709551616",
    b"18446744073709551617",
    b"0x10000000000000001",
    b"0x1ffffffffffffffff",
    b"100000000000000000000000000000000000000000000000001",
];
/// Numbers that are too large for 32 bits.
const OVER_32_BITS: [&[u8]; 4] = [b"4294967296", b"4294967297", b"0x100000000", b"0x1000000000001"];
/// What stands in the place of a text in a malformed line.
const BAD_TEXTS: [&[u8]; 24] = [
    b"deny",
    b"0",
    b"'0 0 1'",
    b"x\"deny\"",
    b"\\\"deny\\\"",
    b"\"0 0 1\\q\"",
    b"\"0 0 1\\r\"",
    b"\"0 0 1\\0\"",
    b"\"\\x3\"",
    b"\"\\x3g 0 1\"",
    b"\"\\X30 0 1\"",
    b"\"\\N\"",
    b"\"0 0 1",
    b"\"0 0 1\\\"",
    b"\"",
    b"\"deny\\n",
    b"\"0 0 1\\",
    b"\"0 0 1\\x3",
    b"\"0 0 1\"x",
    b"\"0 0 1\"\"",
    b"\"deny\"\t",
    b"\"deny\"\\n",
    b"\"deny\"\"allow\"",
    b"\"deny\" 1",
];

impl Generator {
    /// The line of a call, now and then in an odd form.
    pub(super) fn line_of(&mut self, call: &Call) -> Vec<u8> {
        if !self.random.chance(6) {
            return show::call(call);
        }
        let mut line = self.spaces(0);
        line.extend(show::word(call).bytes());
        for argument in show::arguments(call) {
            line.extend(self.spaces(1));
            match argument {
                Argument::Number(number) => line.extend(self.odd_number(number).bytes()),
                Argument::Text(text) => line.extend(self.odd_text(&text)),
            }
        }
        line.extend(self.spaces(0));
        line
    }

    fn spaces(&mut self, least: usize) -> Vec<u8> {
        let more = if self.random.chance(20) { self.random.index(4) } else { 0 };
        vec![b' '; least + more]
    }

    fn odd_number(&mut self, number: u64) -> String {
        match self.random.below(8) {
            0 => format!("0x{number:x}"),
            1 => format!("0x{number:X}"),
            2 => format!("0x000{number:x}"),
            3 => format!("0x{number:017X}").replace('A', "a"),
            4 => format!("0{number}"),
            5 => format!("{number:030}"),
            _ => number.to_string(),
        }
    }

    fn odd_text(&mut self, text: &[u8]) -> Vec<u8> {
        let mut line = vec![b'"'];
        for byte in text {
            match self.random.below(12) {
                0 => line.extend(format!("\\x{byte:02x}").bytes()),
                1 => line.extend(format!("\\x{byte:02X}").bytes()),
                _ if !b"\n\\\"".contains(byte) => line.push(*byte),
                _ => {
                    let quoted = show::quoted(&[*byte]);
                    line.extend(&quoted[1..quoted.len() - 1]);
                }
            }
        }
        line.push(b'"');
        line
    }

    /// A line that prints nothing.
    pub(super) fn silent_line(&mut self) -> Vec<u8> {
        let line: &[u8] = self.random.pick(&[
            &b""[..],
            b" ",
            b"      ",
            b"# fork 1",
            b"#",
            b"#fresh",
            b"# \"\\q \xff\x00",
        ]);
        line.to_vec()
    }

    /// A line that is malformed in one way.
    pub(super) fn malformed_line(&mut self) -> Vec<u8> {
        let name = self.live_process().to_string();
        let name = name.as_bytes();
        match self.random.below(11) {
            0 => join(&[self.random.pick(&UNKNOWN_WORDS), name]),
            1 => self.line_with_too_few(name),
            2 => self.line_with_too_many(name),
            3 => self.line_with(name, &NOT_NUMBERS),
            4 => self.line_with(name, &TOO_LARGE),
            5 => self.line_with_id_over_32_bits(name),
            6..=8 => {
                let word = self.random.pick(&[&b"write-uid-map"[..], b"write-setgroups"]);
                join(&[word, name, name, self.random.pick(&BAD_TEXTS)])
            }
            9 => {
                let word = self.random.pick(&[&b"read-uid-map"[..], b"read-setgroups"]);
                let length = self.random.pick(&[&b"65537"[..], b"0x10001", b"4294967295"]);
                join(&[word, name, name, length])
            }
            _ => self
                .random
                .pick(&[&b"fresh 1"[..], b"fresh fresh", b"  # x", b"\t", b" \t ", b"fresh \""])
                .to_vec(),
        }
    }

    fn line_with_too_few(&mut self, name: &[u8]) -> Vec<u8> {
        let lines: [&[&[u8]]; 9] = [
            &[b"fork"],
            &[b"clone", b""],
            &[b"setns", name],
            &[b"write-gid-map", name, name],
            &[b"read-gid-map", name, name],
            &[b"setresgid", name, b"0", b"0"],
            &[b"setgroups"],
            &[b"capset", name, b"0"],
            &[b"write-setgroups", name, b"\"deny\""],
        ];
        join(self.random.pick(&lines))
    }

    fn line_with_too_many(&mut self, name: &[u8]) -> Vec<u8> {
        let lines: [&[&[u8]]; 7] = [
            &[b"fork", name, name],
            &[b"unshare", name, b"#"],
            &[b"setns", name, b"0", b"0"],
            &[b"write-uid-map", name, name, b"\"0 0 1\"", b"\"0 0 1\""],
            &[b"read-setgroups", name, name, b"6", b"6"],
            &[b"setresuid", name, b"0", b"0", b"0", b"0"],
            &[b"capset", name, b"0", b"0", b"0"],
        ];
        join(self.random.pick(&lines))
    }

    /// A line with one of the words in the place of a 64-bit number.
    fn line_with(&mut self, name: &[u8], words: &[&[u8]]) -> Vec<u8> {
        let word = self.random.pick(words);
        let lines: [&[&[u8]]; 6] = [
            &[b"fork", word],
            &[b"setns", name, word],
            &[b"capset", name, b"0", word],
            &[b"setgroups", word, b"0"],
            &[b"read-uid-map", name, word, b"10"],
            &[b"setresuid", name, b"0", b"0", word],
        ];
        join(self.random.pick(&lines))
    }

    fn line_with_id_over_32_bits(&mut self, name: &[u8]) -> Vec<u8> {
        let word = self.random.pick(&OVER_32_BITS);
        let lines: [&[&[u8]]; 4] = [
            &[b"setresgid", name, word, b"0", b"0"],
            &[b"setgroups", name, b"0", word],
            &[b"capable", name, b"0", word],
            &[b"read-gid-map", name, name, word],
        ];
        join(self.random.pick(&lines))
    }

    /// A good line, a comment or a blank one that goes on for more bytes than a line may have.
    pub(super) fn too_long_line(&mut self) -> Vec<u8> {
        let mut line = self.random.pick(&[&b"fork 1"[..], b"fork 1", b"#", b"", b"fresh"]).to_vec();
        let over = self.random.pick(&[1, 1, 2, 100]);
        line.resize(MAX_LINE + over, b' ');
        line
    }

    pub(super) fn many_ids_line(&mut self) -> Vec<u8> {
        let mut line = b"setgroups 1".to_vec();
        for _ in 0..MAX_IDS + 1 + self.random.index(2) {
            line.extend(b" 0");
        }
        line
    }
}

fn join(words: &[&[u8]]) -> Vec<u8> {
    words.join(&b' ')
}
