//! An ordinary parser of a map's text in Rust, which goes over the text once and then tests the lines: what the reader is
//! compared with.

/// The most lines that a map has.
const MAX_LINES: usize = 5;

#[derive(Clone, Copy, Default)]
struct Line {
    inside: u32,
    parent: u32,
    count: u32,
}

/// The lines of a map, of which `count` are in use.
#[derive(Default)]
pub struct Map {
    lines: [Line; MAX_LINES],
    count: usize,
}

impl Map {
    pub fn count(&self) -> usize {
        self.count
    }

    /// Each line is within its bounds, and no two of them overlap on either side.
    fn is_good(&self) -> bool {
        let lines = &self.lines[..self.count];
        let clear = |(index, line): (usize, &Line)| {
            is_bounded(line) && lines[..index].iter().all(|other| are_apart(line, other))
        };
        !lines.is_empty() && lines.iter().enumerate().all(clear)
    }
}

fn is_bounded(line: &Line) -> bool {
    line.count > 0
        && line.inside.checked_add(line.count).is_some()
        && line.parent.checked_add(line.count).is_some()
}

/// The ends of two good lines do not overflow.
fn are_apart(a: &Line, b: &Line) -> bool {
    let side = |a_start, b_start| a_start + a.count <= b_start || b_start + b.count <= a_start;
    side(a.inside, b.inside) && side(a.parent, b.parent)
}

struct Parser<'a> {
    text: &'a [u8],
    at: usize,
}

impl Parser<'_> {
    fn skip_blanks(&mut self) {
        while let Some(b' ' | b'\t') = self.text.get(self.at) {
            self.at += 1;
        }
    }

    /// The number after any blanks.
    fn number(&mut self) -> Option<u32> {
        self.skip_blanks();
        let start = self.at;
        let mut value: u32 = 0;
        while let Some(digit @ b'0'..=b'9') = self.text.get(self.at) {
            value = value.checked_mul(10)?.checked_add(u32::from(digit - b'0'))?;
            self.at += 1;
        }
        (self.at > start).then_some(value)
    }

    fn line(&mut self) -> Option<Line> {
        let line = Line { inside: self.number()?, parent: self.number()?, count: self.number()? };
        self.skip_blanks();
        match self.text.get(self.at) {
            Some(b'\n') => self.at += 1,
            Some(_) => return None,
            None => {}
        }
        Some(line)
    }
}

/// The lines of a map's text, or None where it is no map's.
pub fn parse(text: &[u8]) -> Option<Map> {
    let mut parser = Parser { text, at: 0 };
    let mut map = Map::default();
    while parser.at < text.len() {
        *map.lines.get_mut(map.count)? = parser.line()?;
        map.count += 1;
    }
    map.is_good().then_some(map)
}
