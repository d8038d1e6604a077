//! ID maps: their lines, the text they are written as, and the lookups between a namespace and its parent.

use crate::answer::Rule;

/// The value that means "no ID"; it is never mapped. It is also the most that a number of a map's text may be, and that
/// a start plus a count may be.
pub const NO_ID: u32 = 4_294_967_295;
/// The most lines of a map.
pub const MAX_LINES: usize = 5;
/// The most bytes of the text of a map that is written.
pub const MAX_TEXT: usize = 4_095;

/// User IDs with the user maps, or group IDs with the group maps.
#[derive(Clone, Copy, PartialEq, Eq, Debug)]
pub enum Kind {
    User,
    Group,
}

/// "A map line is inside start, parent start, count."
#[derive(Clone, Copy, PartialEq, Eq, Debug)]
pub struct Line {
    pub inside: u32,
    pub parent: u32,
    pub count: u32,
}

impl Line {
    /// The first ID after the line's range on the inside.
    pub fn inside_end(&self) -> u64 {
        u64::from(self.inside) + u64::from(self.count)
    }

    /// The first ID after the line's range on the parent side.
    pub fn parent_end(&self) -> u64 {
        u64::from(self.parent) + u64::from(self.count)
    }

    fn has_inside(&self, id: u32) -> bool {
        self.inside <= id && u64::from(id) < self.inside_end()
    }

    fn has_parent(&self, id: u32) -> bool {
        self.parent <= id && u64::from(id) < self.parent_end()
    }

    fn overlaps_inside(&self, other: &Line) -> bool {
        u64::from(self.inside) < other.inside_end() && u64::from(other.inside) < self.inside_end()
    }

    fn overlaps_parent(&self, other: &Line) -> bool {
        u64::from(self.parent) < other.parent_end() && u64::from(other.parent) < self.parent_end()
    }
}

/// "A map is unwritten, or written with one to five lines"
#[derive(Clone, PartialEq, Eq, Debug)]
pub enum IdMap {
    Unwritten,
    Written(Vec<Line>),
}

impl IdMap {
    /// "Namespace 0 has the fixed line 0 0 4294967295 in both."
    pub fn initial() -> IdMap {
        IdMap::Written(vec![Line { inside: 0, parent: 0, count: NO_ID }])
    }

    /// The lines in the order written; an unwritten map has none.
    pub fn lines(&self) -> &[Line] {
        match self {
            IdMap::Unwritten => &[],
            IdMap::Written(lines) => lines,
        }
    }

    pub fn is_written(&self) -> bool {
        *self != IdMap::Unwritten
    }

    /// One step out: "Going out adds the offset to the parent start".
    pub fn to_parent(&self, id: u32) -> Option<u32> {
        let line = self.lines().iter().find(|line| line.has_inside(id))?;
        Some(line.parent + (id - line.inside))
    }

    /// One step back: the undoing of `to_parent`.
    pub fn from_parent(&self, id: u32) -> Option<u32> {
        let line = self.lines().iter().find(|line| line.has_parent(id))?;
        Some(line.inside + (id - line.parent))
    }

    /// Whether one line has the whole range of `count` IDs from `start` on.
    pub fn has_whole(&self, start: u32, count: u32) -> bool {
        let end = u64::from(start) + u64::from(count);
        self.lines().iter().any(|line| line.inside <= start && end <= line.inside_end())
    }
}

/// Reads the text of a map of at least one byte, by the section "Text of a map".
pub fn parse(text: &[u8]) -> Result<Vec<Line>, Rule> {
    let mut lines: Vec<Line> = Vec::new();
    // "Lines end in a newline; the last may lack it."
    let text = text.strip_suffix(b"\n").unwrap_or(text);
    for line in text.split(|&byte| byte == b'\n') {
        let line = parse_line(line)?;
        // "No two lines overlap on the inside, nor on the parent side."
        if lines.iter().any(|other| line.overlaps_inside(other)) {
            return Err(Rule::OverlapInside);
        }
        if lines.iter().any(|other| line.overlaps_parent(other)) {
            return Err(Rule::OverlapParent);
        }
        // "a sixth line gives 22"
        if lines.len() == MAX_LINES {
            return Err(Rule::SixthLine);
        }
        lines.push(line);
    }
    Ok(lines)
}

fn parse_line(line: &[u8]) -> Result<Line, Rule> {
    // "Any other byte ... gives 22."
    if line.iter().any(|byte| !(byte.is_ascii_digit() || is_gap(byte))) {
        return Err(Rule::OtherByte);
    }
    // "A line is three decimal numbers with one or more spaces or tabs between, and any before or after."
    let fields: Vec<&[u8]> = line.split(is_gap).filter(|f| !f.is_empty()).collect();
    // "an empty line ... gives 22"
    if fields.is_empty() {
        return Err(Rule::EmptyLine);
    }
    if fields.len() != 3 {
        return Err(Rule::NotThreeNumbers);
    }
    let line = Line {
        inside: parse_number(fields[0])?,
        parent: parse_number(fields[1])?,
        count: parse_number(fields[2])?,
    };
    // "The count is over 0"
    if line.count == 0 {
        return Err(Rule::CountZero);
    }
    // "each start plus the count is at most 4,294,967,295"
    if line.inside_end() > u64::from(NO_ID) {
        return Err(Rule::InsideOverTop);
    }
    if line.parent_end() > u64::from(NO_ID) {
        return Err(Rule::ParentOverTop);
    }
    Ok(line)
}

fn is_gap(byte: &u8) -> bool {
    *byte == b' ' || *byte == b'\t'
}

/// "A number is one or more digits of value at most 4,294,967,295."
fn parse_number(digits: &[u8]) -> Result<u32, Rule> {
    let mut value: u64 = 0;
    for digit in digits {
        value = value * 10 + u64::from(digit - b'0');
        if value > u64::from(NO_ID) {
            return Err(Rule::NumberOverTop);
        }
    }
    Ok(value as u32)
}
