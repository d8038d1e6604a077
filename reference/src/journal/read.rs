//! Reads a journal record by record, up to its end or to the first byte string that is no record.

use std::fmt;
use std::io::{self, Read};

use super::{Entry, VERSION};
use crate::call::{Call, Direction};
use crate::id_map::Kind;

/// Why the reading stops.
#[derive(Clone, Copy, PartialEq, Eq, PartialOrd, Ord, Debug)]
pub enum Reason {
    Version,
    CutOff,
    Short,
    UnknownCall,
    Leftover,
}

impl fmt::Display for Reason {
    fn fmt(&self, f: &mut fmt::Formatter) -> fmt::Result {
        f.write_str(match self {
            Reason::Version => "version missing or unknown",
            Reason::CutOff => "record cut off",
            Reason::Short => "short record",
            Reason::UnknownCall => "unknown call byte",
            Reason::Leftover => "leftover bytes",
        })
    }
}

/// Where the reading stops and why.
#[derive(Clone, Copy, PartialEq, Eq, Debug)]
pub struct Stop {
    /// The place of the record's first byte in the journal, 0 for the version's.
    pub offset: u64,
    pub reason: Reason,
}

impl fmt::Display for Stop {
    fn fmt(&self, f: &mut fmt::Formatter) -> fmt::Result {
        write!(f, "stopped at {}: {}", self.offset, self.reason)
    }
}

/// What comes next in a journal.
#[derive(Clone, PartialEq, Eq, Debug)]
pub enum Next {
    Entry(Entry),
    End,
    Stop(Stop),
}

/// Reads a journal of any length, and holds one record at a time.
pub struct Reader<R> {
    input: R,
    /// How many bytes of the journal the version and the records before have.
    offset: u64,
    /// What follows the length in the present record.
    body: Vec<u8>,
}

impl<R: Read> Reader<R> {
    pub fn new(input: R) -> Reader<R> {
        Reader { input, offset: 0, body: Vec::new() }
    }

    /// The next call, the end or the stop. After the end or a stop nothing is to be asked.
    pub fn next(&mut self) -> io::Result<Next> {
        if self.offset == 0 {
            if self.take(1)? != [VERSION] {
                return Ok(self.stop(Reason::Version));
            }
            self.offset = 1;
        }
        let length = match self.take(2)? {
            [] => return Ok(Next::End),
            [high, low] => u16::from_be_bytes([*high, *low]),
            _ => return Ok(self.stop(Reason::CutOff)),
        };
        if self.take(length)?.len() < usize::from(length) {
            return Ok(self.stop(Reason::CutOff));
        }
        match parse(&self.body) {
            Err(reason) => Ok(self.stop(reason)),
            Ok(entry) => {
                self.offset += 2 + u64::from(length);
                Ok(Next::Entry(entry))
            }
        }
    }

    fn stop(&self, reason: Reason) -> Next {
        Next::Stop(Stop { offset: self.offset, reason })
    }

    /// The next `count` bytes of the journal, fewer if it ends before.
    fn take(&mut self, count: u16) -> io::Result<&[u8]> {
        self.body.clear();
        self.input.by_ref().take(u64::from(count)).read_to_end(&mut self.body)?;
        Ok(&self.body)
    }
}

/// Reads a journal that is in memory: the calls, and the stop if the end is not good.
pub fn read(journal: &[u8]) -> (Vec<Entry>, Option<Stop>) {
    let mut reader = Reader::new(journal);
    let mut entries = Vec::new();
    loop {
        match reader.next().expect("reading memory does not fail") {
            Next::Entry(entry) => entries.push(entry),
            Next::End => return (entries, None),
            Next::Stop(stop) => return (entries, Some(stop)),
        }
    }
}

/// A journal cut into its version, its records and what stands from the stop on.
pub fn parts(journal: &[u8]) -> Vec<&[u8]> {
    let mut reader = Reader::new(journal);
    let mut ends = vec![0];
    if journal.first() == Some(&VERSION) {
        ends.push(1);
    }
    while let Ok(Next::Entry(_)) = reader.next() {
        ends.push(reader.offset as usize);
    }
    if ends.last() < Some(&journal.len()) {
        ends.push(journal.len());
    }
    ends.windows(2).map(|pair| &journal[pair[0]..pair[1]]).collect()
}

/// Reads what follows the length of a record.
fn parse(body: &[u8]) -> Result<Entry, Reason> {
    let (byte, rest) = body.split_first().ok_or(Reason::Short)?;
    let mut fields = Fields { rest };
    let entry = match byte {
        0x10 => Entry::of(Call::Fork { caller: fields.eight()? }),
        0x11 => Entry::of(Call::Clone { caller: fields.eight()? }),
        0x14 => Entry::of(Call::Unshare { caller: fields.eight()? }),
        0x17 => Entry::of(Call::Setns { caller: fields.eight()?, namespace: fields.eight()? }),
        0x20 => write_map(Kind::User, &mut fields)?,
        0x21 => write_map(Kind::Group, &mut fields)?,
        0x22 => Entry::of(Call::WriteSetgroups {
            caller: fields.eight()?,
            process: fields.eight()?,
            text: fields.text(),
        }),
        0x23 => read_map(Kind::User, &mut fields)?,
        0x24 => read_map(Kind::Group, &mut fields)?,
        0x25 => read_setgroups(&mut fields)?,
        0x30 => set_ids(Kind::User, &mut fields)?,
        0x31 => set_ids(Kind::Group, &mut fields)?,
        0x32 => Entry::of(Call::Setgroups { caller: fields.eight()?, groups: fields.ids() }),
        0x33 => Entry::of(Call::Capset {
            caller: fields.eight()?,
            permitted: fields.eight()?,
            effective: fields.eight()?,
        }),
        0x34 => Entry::of(Call::GetIds { caller: fields.eight()? }),
        0x40 => Entry::of(Call::Capable {
            caller: fields.eight()?,
            namespace: fields.eight()?,
            number: fields.four()?,
        }),
        0x41 => translate(Kind::User, Direction::Out, &mut fields)?,
        0x42 => translate(Kind::User, Direction::Back, &mut fields)?,
        0x43 => translate(Kind::Group, Direction::Out, &mut fields)?,
        0x44 => translate(Kind::Group, Direction::Back, &mut fields)?,
        _ => return Err(Reason::UnknownCall),
    };
    if fields.rest.is_empty() {
        Ok(entry)
    } else {
        Err(Reason::Leftover)
    }
}

fn write_map(kind: Kind, fields: &mut Fields) -> Result<Entry, Reason> {
    let (caller, process) = (fields.eight()?, fields.eight()?);
    Ok(Entry::of(Call::WriteMap { kind, caller, process, text: fields.text() }))
}

fn read_map(kind: Kind, fields: &mut Fields) -> Result<Entry, Reason> {
    let (caller, process) = (fields.eight()?, fields.eight()?);
    let call = Call::ReadMap { kind, caller, process, buffer: Vec::new() };
    Ok(Entry::of(call).lending(u64::from(fields.four()?)))
}

fn read_setgroups(fields: &mut Fields) -> Result<Entry, Reason> {
    let (caller, process) = (fields.eight()?, fields.eight()?);
    let call = Call::ReadSetgroups { caller, process, buffer: Vec::new() };
    Ok(Entry::of(call).lending(u64::from(fields.four()?)))
}

fn set_ids(kind: Kind, fields: &mut Fields) -> Result<Entry, Reason> {
    let caller = fields.eight()?;
    let ids = [fields.four()?, fields.four()?, fields.four()?];
    Ok(Entry::of(Call::SetIds { kind, caller, ids }))
}

fn translate(kind: Kind, direction: Direction, fields: &mut Fields) -> Result<Entry, Reason> {
    let (caller, namespace) = (fields.eight()?, fields.eight()?);
    let id = fields.four()?;
    Ok(Entry::of(Call::Translate { kind, direction, caller, namespace, id }))
}

/// The part of a record that is not read yet.
struct Fields<'a> {
    rest: &'a [u8],
}

impl Fields<'_> {
    /// A number of eight bytes.
    fn eight(&mut self) -> Result<u64, Reason> {
        let (bytes, rest) = self.rest.split_first_chunk().ok_or(Reason::Short)?;
        self.rest = rest;
        Ok(u64::from_be_bytes(*bytes))
    }

    /// A number of four bytes.
    fn four(&mut self) -> Result<u32, Reason> {
        let (bytes, rest) = self.rest.split_first_chunk().ok_or(Reason::Short)?;
        self.rest = rest;
        Ok(u32::from_be_bytes(*bytes))
    }

    /// All the bytes to the record's end.
    fn text(&mut self) -> Vec<u8> {
        std::mem::take(&mut self.rest).to_vec()
    }

    /// All the whole IDs to the record's end.
    fn ids(&mut self) -> Vec<u32> {
        let mut ids = Vec::new();
        while let Ok(id) = self.four() {
            ids.push(id);
        }
        ids
    }
}
