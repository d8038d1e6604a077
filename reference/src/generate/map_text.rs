//! Generated texts of maps: good ones that fit the parent, ones that break one rule, and damaged ones.

use super::Generator;
use crate::calls::capability_over;
use crate::id_map::{Kind, Line, MAX_LINES, MAX_TEXT, NO_ID};

/// The three numbers of a line, which need not make a good one.
type Numbers = [u64; 3];

/// The most that a start and a count may add up to.
const TOP: u64 = NO_ID as u64;
/// Numbers at the bounds of what a line may hold.
const BOUNDS: [&[u8]; 10] = [
    b"4294967293",
    b"4294967294",
    b"4294967295",
    b"4294967296",
    b"4294967297",
    b"18446744073709551616",
    b"18446744073709551617",
    b"00000000000000000000000000000000000001",
    b"0004294967295",
    b"0",
];

impl Generator {
    /// A text for the map of `process`, as `caller` may write it or almost.
    pub(super) fn map_text(&mut self, kind: Kind, caller: u64, process: u64) -> Vec<u8> {
        let bad = self.go_bad() || self.random.chance(25);
        let broken = bad && self.random.chance(50);
        let lines = if broken {
            self.broken_lines(kind, process)
        } else {
            self.good_lines(kind, caller, process)
        };
        let text = self.format(&lines);
        if bad && !broken {
            self.damage(text)
        } else {
            text
        }
    }

    /// A map that holds little more than the ID of the process.
    pub(super) fn narrow_map_text(&mut self, kind: Kind, process: u64) -> Vec<u8> {
        let above = self.lines_above(kind, process);
        let parent = self.parent_of(process);
        let member = self.effective_id_in(kind, process, parent).unwrap_or(0);
        let range = self.part_with(&above, member);
        let lines = self.pieces(range);
        self.format(&lines)
    }

    /// A map at the edges of the lines above.
    pub(super) fn edge_map_text(&mut self, kind: Kind, process: u64) -> Vec<u8> {
        let above = self.lines_above(kind, process);
        let lines = self.line_over_the_edge(&above);
        self.format(&lines)
    }

    /// The parent of the namespace of a process.
    fn parent_of(&self, process: u64) -> u64 {
        let target = self.process(process).map_or(0, |p| p.namespace);
        self.tables.namespaces[&target].parent.unwrap_or(0)
    }

    /// The lines of the map above the one of `process`.
    fn lines_above(&self, kind: Kind, process: u64) -> Vec<Line> {
        let parent = self.parent_of(process);
        self.tables.namespaces[&parent].map(kind).lines().to_vec()
    }

    fn good_lines(&mut self, kind: Kind, caller: u64, process: u64) -> Vec<Numbers> {
        let parent = self.parent_of(process);
        let Some(writer) = self.process(caller).cloned() else {
            return vec![[0, 0, 1]];
        };
        let privileged = self.tables.holds(&writer, capability_over(kind), parent);
        if privileged && self.random.chance(90) || self.random.chance(10) {
            let above = self.lines_above(kind, process);
            let member = self.effective_id_in(kind, process, parent);
            return self.lines_within(&above, member);
        }
        let own = self.effective_id_in(kind, caller, parent);
        let inside = self.random.pick(&[0, 0, 0, 1, 1000, TOP - 1]);
        vec![[inside, u64::from(own.unwrap_or(0)), 1]]
    }

    /// The effective ID of a process as seen in a namespace.
    fn effective_id_in(&self, kind: Kind, process: u64, namespace: u64) -> Option<u32> {
        let id = self.process(process)?.ids(kind).effective;
        self.tables.from_kernel(kind, namespace, id)
    }

    /// Lines whose parent sides lie whole in lines above, and often hold the member's ID.
    fn lines_within(&mut self, above: &[Line], member: Option<u32>) -> Vec<Numbers> {
        if above.is_empty() {
            return vec![[0, 0, 1]];
        }
        match (self.random.below(10), member) {
            (0 | 1, _) => self.lines_that_lose_none(above),
            (2, _) => {
                let line = self.random.pick(above);
                let (start, count) = (u64::from(line.inside), u64::from(line.count));
                vec![[if self.random.chance(50) { start } else { 0 }, start, count]]
            }
            (3..=7, Some(member)) => {
                let range = self.part_with(above, member);
                self.pieces(range)
            }
            _ => {
                let range = self.part(above);
                self.pieces(range)
            }
        }
    }

    /// Lines that have all that the lines above have.
    pub(super) fn lines_that_lose_none(&mut self, above: &[Line]) -> Vec<Numbers> {
        match above {
            [line] if self.random.chance(50) => {
                self.pieces((u64::from(line.inside), u64::from(line.count)))
            }
            _ => self.same_lines(above),
        }
    }

    /// All the lines above, with the same IDs inside or packed from 0 on.
    fn same_lines(&mut self, above: &[Line]) -> Vec<Numbers> {
        let packed = self.random.chance(50);
        let mut next = 0;
        let mut lines = Vec::new();
        for line in above {
            let (start, count) = (u64::from(line.inside), u64::from(line.count));
            lines.push([if packed { next } else { start }, start, count]);
            next += count;
        }
        lines
    }

    /// A part of one line above.
    fn part(&mut self, above: &[Line]) -> (u64, u64) {
        let line = self.random.pick(above);
        let (start, count) = (u64::from(line.inside), u64::from(line.count));
        let offset = match self.random.below(4) {
            0 => 0,
            1 => self.random.below(count),
            _ => self.random.pick(&[0, 1, 10, 1000, 100_000]) % count,
        };
        let left = count - offset;
        let length = match self.random.below(4) {
            0 => left,
            1 => 1 + self.random.below(left),
            _ => self.random.pick(&[1, 2, 10, 1000, 65_536]).min(left),
        };
        (start + offset, length)
    }

    /// A part of the line above that has an ID with that ID in it, or just the ID.
    fn part_with(&mut self, above: &[Line], id: u32) -> (u64, u64) {
        let id = u64::from(id);
        let has = |line: &&Line| u64::from(line.inside) <= id && id < line.inside_end();
        let Some(line) = above.iter().find(has) else {
            return (id, 1);
        };
        let first = id - self.random.below((id - u64::from(line.inside)).min(5) + 1);
        let most = line.inside_end() - first;
        let length = self.random.pick(&[1, 2, 10, 20, 1000, 65_536]);
        (first, length.max(id + 1 - first).min(most))
    }

    /// A range cut into up to five lines, in any order, adjoining on the inside or apart.
    fn pieces(&mut self, (start, count): (u64, u64)) -> Vec<Numbers> {
        let wanted = 1 + self.random.index(MAX_LINES);
        let gap = self.random.pick(&[0, 0, 1, 7]);
        let mut inside = self.random.pick(&[0, 0, 0, 5, 1000]);
        if inside + count + gap * 5 > TOP {
            inside = 0;
        }
        let gap = if count + gap * 5 > TOP { 0 } else { gap };
        let (mut parent, mut left) = (start, count);
        let mut lines = Vec::new();
        while left > 0 {
            let length = if lines.len() + 1 == wanted { left } else { 1 + self.random.below(left) };
            let place = self.random.index(lines.len() + 1);
            lines.insert(place, [inside, parent, length]);
            inside += length + gap;
            parent += length;
            left -= length;
        }
        lines
    }

    /// Lines that break one rule about the numbers.
    fn broken_lines(&mut self, kind: Kind, process: u64) -> Vec<Numbers> {
        let above = self.lines_above(kind, process);
        let line = match above.is_empty() {
            true => [0, 0, 1],
            false => {
                let (start, count) = self.part(&above);
                [0, start, count]
            }
        };
        let [inside, parent, count] = line;
        match self.random.below(12) {
            0 => vec![[inside, parent, 10], [inside + 5, parent + 10, 10]],
            1 => vec![[inside, parent, 10], [inside + 20, parent + 9, 5]],
            2 => vec![line, line],
            3 => (0..=MAX_LINES as u64).map(|i| [i * 2, parent + i, 1]).collect(),
            4 => vec![[inside, parent, 0]],
            5 => vec![[1 + self.random.below(TOP), parent, TOP]],
            6 => vec![[inside, TOP - self.random.below(2), 1 + self.random.below(2)]],
            7 => vec![[TOP - self.random.below(2), parent, 1 + self.random.below(2)]],
            8 => vec![[inside, parent, count + 1 + self.random.below(20)]],
            9 => self.line_over_the_edge(&above),
            10 => vec![[inside, parent + 1, 1]],
            _ => vec![[inside, parent, 2]],
        }
    }

    /// A line that starts in a line above and runs over its edge, or from one line above to another, which adjoins
    /// the first if one does.
    fn line_over_the_edge(&mut self, above: &[Line]) -> Vec<Numbers> {
        if above.is_empty() {
            return vec![[0, 0, 2]];
        }
        let first = self.random.pick(above);
        if self.random.chance(30) && first.inside > 0 {
            return vec![[0, u64::from(first.inside) - 1, 2]];
        }
        let adjoins = |line: &&Line| u64::from(line.inside) == first.inside_end();
        let other = match above.iter().find(adjoins) {
            Some(line) => *line,
            None => self.random.pick(above),
        };
        let start = first.inside_end() - 1;
        let end = other.inside_end().max(start + 2);
        vec![[0, start, end - start]]
    }

    /// The text of lines, with the gaps and newlines that the rules leave free.
    pub(super) fn format(&mut self, lines: &[Numbers]) -> Vec<u8> {
        let mut text = Vec::new();
        for line in lines {
            for (place, number) in line.iter().enumerate() {
                let gap: &[u8] = match self.random.below(30) {
                    0 => b"\t",
                    1 => b"   ",
                    2 => b" \t ",
                    _ if place == 0 => b"",
                    _ => b" ",
                };
                text.extend(if place > 0 || self.random.chance(30) { gap } else { b"" });
                if self.random.chance(2) {
                    text.extend(b"000");
                }
                text.extend(number.to_string().bytes());
            }
            if self.random.chance(4) {
                text.extend(self.random.pick(&[&b" "[..], b"\t", b"  "]));
            }
            text.push(b'\n');
        }
        if self.random.chance(50) {
            text.pop();
        }
        text
    }

    /// The text changed in one place, or made longer, or emptied.
    fn damage(&mut self, mut text: Vec<u8>) -> Vec<u8> {
        let place = self.random.index(text.len());
        match self.random.below(26) {
            0..=2 => {
                text.remove(place);
            }
            3..=6 => text[place] = self.byte(),
            7..=9 => {
                let byte = self.byte();
                text.insert(place, byte);
            }
            10 | 11 => text.clear(),
            12 => text.extend(b"\n\n"),
            13 => text.insert(0, b'\n'),
            14..=18 => self.replace_number(&mut text, place),
            19 => text.truncate(place),
            20 => text.extend(self.random.pick(&[&b" 1"[..], b"\r\n", b"\0", b" \n \n", b",0"])),
            21 => self.pad(&mut text, place, MAX_TEXT),
            22 | 23 => self.pad(&mut text, place, MAX_TEXT + 1),
            _ => {
                let again = text.clone();
                text.extend(again);
            }
        }
        text
    }

    /// A byte that stands in map texts, or any.
    fn byte(&mut self) -> u8 {
        match self.random.below(3) {
            0 => self.random.next() as u8,
            _ => self.random.pick(b"0123456789 \t\n-+x,."),
        }
    }

    /// Puts a number at the bounds in place of the word at `place`.
    fn replace_number(&mut self, text: &mut Vec<u8>, place: usize) {
        let number = self.random.pick(&BOUNDS);
        let is_digit = |byte: &u8| byte.is_ascii_digit();
        let before = text[..place].iter().rev().take_while(|b| is_digit(b)).count();
        let after = text[place..].iter().take_while(|b| is_digit(b)).count();
        text.splice(place - before..place + after, number.iter().copied());
    }

    /// Makes the text `length` bytes long, with spaces at the end or after the word at `place`.
    fn pad(&mut self, text: &mut Vec<u8>, place: usize, length: usize) {
        let gap = text[place..].iter().position(|byte| *byte == b' ');
        let at = gap.map_or(text.len(), |offset| place + offset);
        let missing = length.saturating_sub(text.len());
        text.splice(at..at, std::iter::repeat_n(b' ', missing));
    }
}
