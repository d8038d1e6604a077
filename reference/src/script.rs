//! The text form of calls: reads one line of a script, and runs a whole script.

use std::io::{self, BufRead, Read, Write};

use crate::call::{Call, Direction};
use crate::id_map::Kind;
use crate::show;
use crate::tables::Tables;

/// A longer line is malformed.
pub const MAX_LINE: usize = 65_536;
/// A longer buffer makes a line malformed.
pub const MAX_BUFFER: u64 = 65_536;
/// More IDs on a `setgroups` line make it malformed.
pub const MAX_IDS: usize = 1_000;
/// What a lent buffer is filled with before the call.
pub const FILLER: u8 = b'.';

/// Why a line is malformed.
#[derive(Clone, Copy, PartialEq, Eq, Debug)]
pub enum Malformed {
    LineTooLong,
    UnknownWord,
    TooFewArguments,
    TooManyArguments,
    FreshWithArguments,
    NotANumber,
    NumberTooLarge,
    NotAText,
    BadEscape,
    MissingQuote,
    JunkAfterQuote,
    BufferTooLong,
    TooManyIds,
}

impl Malformed {
    pub fn name(self) -> &'static str {
        match self {
            Malformed::LineTooLong => "line too long",
            Malformed::UnknownWord => "unknown word",
            Malformed::TooFewArguments => "too few arguments",
            Malformed::TooManyArguments => "too many arguments",
            Malformed::FreshWithArguments => "fresh with arguments",
            Malformed::NotANumber => "not a number",
            Malformed::NumberTooLarge => "number too large",
            Malformed::NotAText => "not a text",
            Malformed::BadEscape => "bad escape",
            Malformed::MissingQuote => "missing quote",
            Malformed::JunkAfterQuote => "junk after quote",
            Malformed::BufferTooLong => "buffer too long",
            Malformed::TooManyIds => "too many IDs",
        }
    }
}

/// What one line of a script is.
#[derive(Clone, PartialEq, Eq, Debug)]
pub enum Item {
    Blank,
    Comment,
    Fresh,
    Call(Call),
    Malformed(Malformed),
}

/// Runs a script, with one line of output for each line that is neither blank nor a comment.
pub fn run(mut input: impl BufRead, mut output: impl Write) -> io::Result<()> {
    let mut tables = Tables::initial();
    let mut line = Vec::new();
    while next_line(&mut input, &mut line)? {
        match parse(&line) {
            Item::Blank | Item::Comment => {}
            Item::Fresh => {
                tables = Tables::initial();
                output.write_all(b"fresh\n")?;
            }
            Item::Call(call) => {
                output.write_all(&show::answer(&tables.answer(&call)))?;
                output.write_all(b"\n")?;
            }
            Item::Malformed(_) => output.write_all(b"malformed\n")?,
        }
    }
    output.flush()
}

/// The output of a script that is in memory.
pub fn output_of(script: &[u8]) -> Vec<u8> {
    let mut output = Vec::new();
    run(script, &mut output).expect("reading and writing memory does not fail");
    output
}

/// Reads the next line without its newline, false at the input's end; of a line that is too long
/// only the first bytes are kept, one more than are allowed.
pub(crate) fn next_line(input: &mut impl BufRead, line: &mut Vec<u8>) -> io::Result<bool> {
    line.clear();
    let limit = MAX_LINE as u64 + 1;
    input.by_ref().take(limit).read_until(b'\n', line)?;
    if line.last() == Some(&b'\n') {
        line.pop();
        return Ok(true);
    }
    if line.len() > MAX_LINE {
        input.skip_until(b'\n')?;
    }
    Ok(!line.is_empty())
}

/// Reads one line, which is without its newline.
pub fn parse(line: &[u8]) -> Item {
    if line.len() > MAX_LINE {
        return Item::Malformed(Malformed::LineTooLong);
    }
    if line.iter().all(|&byte| byte == b' ') {
        return Item::Blank;
    }
    if line.starts_with(b"#") {
        return Item::Comment;
    }
    let mut arguments = Arguments { rest: line };
    let word = arguments.token().unwrap_or_default();
    if word == b"fresh" {
        return match arguments.token() {
            None => Item::Fresh,
            Some(_) => Item::Malformed(Malformed::FreshWithArguments),
        };
    }
    match parse_call(word, &mut arguments) {
        Err(malformed) => Item::Malformed(malformed),
        Ok(_) if arguments.token().is_some() => Item::Malformed(Malformed::TooManyArguments),
        Ok(call) => Item::Call(call),
    }
}

fn parse_call(word: &[u8], arguments: &mut Arguments) -> Result<Call, Malformed> {
    let call = match word {
        b"fork" => Call::Fork { caller: arguments.name()? },
        b"clone" => Call::Clone { caller: arguments.name()? },
        b"unshare" => Call::Unshare { caller: arguments.name()? },
        b"setns" => Call::Setns { caller: arguments.name()?, namespace: arguments.name()? },
        b"setgroups" => Call::Setgroups { caller: arguments.name()?, groups: arguments.ids()? },
        b"capable" => Call::Capable {
            caller: arguments.name()?,
            namespace: arguments.name()?,
            number: arguments.id()?,
        },
        b"capset" => Call::Capset {
            caller: arguments.name()?,
            permitted: arguments.name()?,
            effective: arguments.name()?,
        },
        b"getids" => Call::GetIds { caller: arguments.name()? },
        b"setresuid" => set_ids(Kind::User, arguments)?,
        b"setresgid" => set_ids(Kind::Group, arguments)?,
        b"translate-uid-out" => translate(Kind::User, Direction::Out, arguments)?,
        b"translate-uid-back" => translate(Kind::User, Direction::Back, arguments)?,
        b"translate-gid-out" => translate(Kind::Group, Direction::Out, arguments)?,
        b"translate-gid-back" => translate(Kind::Group, Direction::Back, arguments)?,
        _ => return parse_file_call(word, arguments),
    };
    Ok(call)
}

fn parse_file_call(word: &[u8], arguments: &mut Arguments) -> Result<Call, Malformed> {
    let call = match word {
        b"write-uid-map" => write_map(Kind::User, arguments)?,
        b"write-gid-map" => write_map(Kind::Group, arguments)?,
        b"write-setgroups" => Call::WriteSetgroups {
            caller: arguments.name()?,
            process: arguments.name()?,
            text: arguments.text()?,
        },
        b"read-uid-map" => read_map(Kind::User, arguments)?,
        b"read-gid-map" => read_map(Kind::Group, arguments)?,
        b"read-setgroups" => Call::ReadSetgroups {
            caller: arguments.name()?,
            process: arguments.name()?,
            buffer: arguments.buffer()?,
        },
        _ => return Err(Malformed::UnknownWord),
    };
    Ok(call)
}

fn write_map(kind: Kind, arguments: &mut Arguments) -> Result<Call, Malformed> {
    Ok(Call::WriteMap {
        kind,
        caller: arguments.name()?,
        process: arguments.name()?,
        text: arguments.text()?,
    })
}

fn read_map(kind: Kind, arguments: &mut Arguments) -> Result<Call, Malformed> {
    Ok(Call::ReadMap {
        kind,
        caller: arguments.name()?,
        process: arguments.name()?,
        buffer: arguments.buffer()?,
    })
}

fn set_ids(kind: Kind, arguments: &mut Arguments) -> Result<Call, Malformed> {
    Ok(Call::SetIds {
        kind,
        caller: arguments.name()?,
        ids: [arguments.id()?, arguments.id()?, arguments.id()?],
    })
}

fn translate(
    kind: Kind,
    direction: Direction,
    arguments: &mut Arguments,
) -> Result<Call, Malformed> {
    Ok(Call::Translate {
        kind,
        direction,
        caller: arguments.name()?,
        namespace: arguments.name()?,
        id: arguments.id()?,
    })
}

/// The part of a line that is not read yet.
struct Arguments<'a> {
    rest: &'a [u8],
}

impl<'a> Arguments<'a> {
    fn skip_spaces(&mut self) {
        while let [b' ', rest @ ..] = self.rest {
            self.rest = rest;
        }
    }

    /// What stands before the next space or the line's end, None if only spaces are left.
    fn token(&mut self) -> Option<&'a [u8]> {
        self.skip_spaces();
        let end = self.rest.iter().position(|&byte| byte == b' ');
        let (token, rest) = self.rest.split_at(end.unwrap_or(self.rest.len()));
        self.rest = rest;
        (!token.is_empty()).then_some(token)
    }

    fn number(&mut self, top: u64) -> Result<u64, Malformed> {
        let token = self.token().ok_or(Malformed::TooFewArguments)?;
        parse_number(token, top)
    }

    /// A name of a process or namespace, or a capability set: 64 bits.
    fn name(&mut self) -> Result<u64, Malformed> {
        self.number(u64::MAX)
    }

    /// An ID, a capability number or a length: 32 bits.
    fn id(&mut self) -> Result<u32, Malformed> {
        Ok(self.number(u64::from(u32::MAX))? as u32)
    }

    /// All the IDs up to the line's end.
    fn ids(&mut self) -> Result<Vec<u32>, Malformed> {
        let mut ids = Vec::new();
        loop {
            self.skip_spaces();
            if self.rest.is_empty() {
                return Ok(ids);
            }
            ids.push(self.id()?);
            if ids.len() > MAX_IDS {
                return Err(Malformed::TooManyIds);
            }
        }
    }

    /// A buffer of the length given.
    fn buffer(&mut self) -> Result<Vec<u8>, Malformed> {
        let length = u64::from(self.id()?);
        if length > MAX_BUFFER {
            return Err(Malformed::BufferTooLong);
        }
        Ok(vec![FILLER; length as usize])
    }

    fn text(&mut self) -> Result<Vec<u8>, Malformed> {
        self.skip_spaces();
        match self.rest {
            [] => return Err(Malformed::TooFewArguments),
            [b'"', rest @ ..] => self.rest = rest,
            _ => return Err(Malformed::NotAText),
        }
        let mut text = Vec::new();
        loop {
            let (byte, rest) = self.rest.split_first().ok_or(Malformed::MissingQuote)?;
            self.rest = rest;
            match byte {
                b'"' => break,
                b'\\' => text.push(self.escape()?),
                _ => text.push(*byte),
            }
        }
        match self.rest {
            [] | [b' ', ..] => Ok(text),
            _ => Err(Malformed::JunkAfterQuote),
        }
    }

    /// The byte that an escape stands for; its backslash is read already.
    fn escape(&mut self) -> Result<u8, Malformed> {
        let (byte, rest) = match self.rest {
            [b'n', rest @ ..] => (b'\n', rest),
            [b't', rest @ ..] => (b'\t', rest),
            [b'\\', rest @ ..] => (b'\\', rest),
            [b'"', rest @ ..] => (b'"', rest),
            [b'x', high, low, rest @ ..] => (
                digit(*high, 16).ok_or(Malformed::BadEscape)? * 16
                    + digit(*low, 16).ok_or(Malformed::BadEscape)?,
                rest,
            ),
            _ => return Err(Malformed::BadEscape),
        };
        self.rest = rest;
        Ok(byte)
    }
}

/// A number, "decimal, or hexadecimal after `0x`", of value `top` at most.
fn parse_number(token: &[u8], top: u64) -> Result<u64, Malformed> {
    let (digits, base) = match token.strip_prefix(b"0x") {
        Some(digits) => (digits, 16),
        None => (token, 10),
    };
    if digits.is_empty() {
        return Err(Malformed::NotANumber);
    }
    let mut value: u128 = 0;
    for byte in digits {
        let digit = digit(*byte, base).ok_or(Malformed::NotANumber)?;
        // A value over the top stays over it, so it need not grow further.
        value = (value * u128::from(base) + u128::from(digit)).min(u128::from(u64::MAX) + 1);
    }
    if value > u128::from(top) {
        return Err(Malformed::NumberTooLarge);
    }
    Ok(value as u64)
}

fn digit(byte: u8, base: u8) -> Option<u8> {
    let value = char::from(byte).to_digit(u32::from(base))?;
    Some(value as u8)
}
