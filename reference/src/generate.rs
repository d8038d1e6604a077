//! Random scripts: lists of calls that bite, among them bad arguments and malformed lines.

mod bite;
mod choose;
mod damage;
mod journals;
mod map_text;
mod odd;
mod plan;

use crate::answer::Answer;
use crate::call::Call;
use crate::random::Random;
use crate::script::MAX_LINE;
use crate::tables::Tables;

pub use journals::Journals;

/// Each stretch of so many calls has one line that is too long and one that just is not.
const LONG_LINE_EVERY: u64 = 20_000;
/// Each stretch of so many calls has one `setgroups` line with too many IDs.
const MANY_IDS_EVERY: u64 = 2_000;

/// Writes lists of calls, and runs each call on tables of its own to choose the next ones.
pub struct Generator {
    random: Random,
    tables: Tables,
    script: Vec<u8>,
    /// Calls still to be written in the present list.
    left: u64,
    /// Calls written in all lists.
    calls: u64,
    /// Percentage of arguments that are bad on purpose.
    bad: u64,
    with_translate: bool,
    too_long_at: u64,
    just_fits_at: u64,
    many_ids_at: u64,
}

impl Generator {
    pub fn new(seed: u64, with_translate: bool) -> Generator {
        let mut random = Random::new(seed);
        Generator {
            too_long_at: random.below(LONG_LINE_EVERY),
            just_fits_at: random.below(LONG_LINE_EVERY),
            many_ids_at: random.below(MANY_IDS_EVERY),
            random,
            tables: Tables::initial(),
            script: Vec::new(),
            left: 0,
            calls: 0,
            bad: 0,
            with_translate,
        }
    }

    /// One list of `length` calls, which starts with `fresh`; `index` decides what kind of list it is.
    pub fn list(&mut self, index: u64, length: u64) -> Vec<u8> {
        self.tables = Tables::initial();
        self.script = b"fresh\n".to_vec();
        self.left = length;
        self.bad = 4;
        match index % 10 {
            0 => self.go_deep(),
            1 => self.fill_namespaces(),
            2 => self.fill_processes(),
            3 => {
                self.fill_namespaces();
                self.fill_processes();
            }
            4 => self.bad = 50,
            5 => self.go_deep_with_noise(),
            _ => self.settle(),
        }
        self.fill_list();
        std::mem::take(&mut self.script)
    }

    /// A list of `length` calls that goes on from the tables which the calls of `start` leave, and
    /// reaches the last level and the end of each table.
    pub fn long_list(&mut self, start: &[Call], length: u64) -> Vec<u8> {
        self.tables = Tables::initial();
        for call in start {
            self.tables.answer(call);
        }
        self.script = Vec::new();
        self.left = length;
        self.bad = 4;
        self.go_deep();
        // No clone is refused for want of a process once there is no namespace left.
        self.fill_processes();
        self.fill_list();
        std::mem::take(&mut self.script)
    }

    fn fill_list(&mut self) {
        while self.left > 0 {
            if self.random.chance(8) {
                self.plan();
            } else {
                let call = self.any_call();
                self.emit(call);
            }
        }
    }

    /// Writes the line of a call and runs it. None when the list is full.
    fn emit(&mut self, call: Call) -> Option<Answer> {
        if self.left == 0 {
            return None;
        }
        self.lines_beside();
        let mut line = self.line_of(&call);
        if self.calls % LONG_LINE_EVERY == self.just_fits_at {
            line.resize(MAX_LINE, b' ');
        }
        self.push_line(&line);
        self.left -= 1;
        self.calls += 1;
        Some(self.tables.answer(&call))
    }

    fn push_line(&mut self, line: &[u8]) {
        self.script.extend(line);
        self.script.push(b'\n');
    }

    /// Now and then a line that is no call: a comment, a blank or a malformed one.
    fn lines_beside(&mut self) {
        if self.random.chance(2) {
            let line = self.malformed_line();
            self.push_line(&line);
        }
        if self.random.chance(1) {
            let line = self.silent_line();
            self.push_line(&line);
        }
        if self.calls % LONG_LINE_EVERY == self.too_long_at {
            let line = self.too_long_line();
            self.push_line(&line);
        }
        if self.calls % MANY_IDS_EVERY == self.many_ids_at {
            let line = self.many_ids_line();
            self.push_line(&line);
        }
    }
}
