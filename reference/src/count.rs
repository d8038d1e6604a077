//! How often each answer, refusal rule and kind of line comes in a script, beside those that can come.

use std::collections::{BTreeMap, BTreeSet};
use std::fmt;

use crate::answer::{Answer, Rule, Rule::*};
use crate::call::Call;
use crate::id_map::Kind;
use crate::journal;
use crate::process::Process;
use crate::script::{self, Item};
use crate::show;
use crate::tables::Tables;

/// What came of a line.
#[derive(Clone, Copy, PartialEq, Eq, PartialOrd, Ord)]
enum Outcome {
    Is(&'static str),
    Refused(Rule),
}

/// Answers and rules that some calls can give, in document 01's order.
struct Rows {
    words: &'static [&'static str],
    answers: &'static [&'static str],
    rules: &'static [Rule],
}

/// The rules of a map write, the last of which are those for the group map alone.
const WRITE_MAP: [Rule; 24] = [
    NoSuchCaller,
    NoSuchProcess,
    TargetInitial,
    WriterElsewhere,
    TextEmpty,
    TextTooLong,
    AlreadyWritten,
    NoCapabilityInTarget,
    OtherByte,
    EmptyLine,
    NotThreeNumbers,
    NumberOverTop,
    CountZero,
    InsideOverTop,
    ParentOverTop,
    OverlapInside,
    OverlapParent,
    SixthLine,
    NotOneLine,
    NotCountOne,
    NotOwnId,
    NotOwner,
    ParentSideNotWhole,
    SetgroupsNotDenied,
];
const WRITE_USER_MAP: &[Rule] = WRITE_MAP.split_at(23).0;

const CALLS: &[Rows] = &[
    Rows { words: &["fork"], answers: &["child"], rules: &[NoSuchCaller, ProcessesFull] },
    Rows {
        words: &["clone"],
        answers: &["child in namespace"],
        rules: &[
            NoSuchCaller,
            LevelFull,
            EffectiveUserUnmapped,
            EffectiveGroupUnmapped,
            NamespacesFull,
            ProcessesFull,
        ],
    },
    Rows {
        words: &["unshare"],
        answers: &["namespace"],
        rules: &[
            NoSuchCaller,
            LevelFull,
            EffectiveUserUnmapped,
            EffectiveGroupUnmapped,
            NamespacesFull,
        ],
    },
    Rows {
        words: &["setns"],
        answers: &["done"],
        rules: &[NoSuchCaller, NoSuchNamespace, AlreadyMember, NoSysAdmin],
    },
    Rows {
        words: &["write-uid-map"],
        answers: &["done from the target", "done from the parent"],
        rules: WRITE_USER_MAP,
    },
    Rows {
        words: &["write-gid-map"],
        answers: &["done from the target", "done from the parent"],
        rules: &WRITE_MAP,
    },
    Rows {
        words: &["write-setgroups"],
        answers: &["done"],
        rules: &[
            NoSuchCaller,
            NoSuchProcess,
            NoSysAdmin,
            NotAllowOrDeny,
            DenyAfterGroupMap,
            AllowAfterDeny,
        ],
    },
    Rows {
        words: &["read-uid-map", "read-gid-map"],
        answers: &["length", "length 0"],
        rules: &[NoSuchCaller, NoSuchProcess, BufferShort],
    },
    Rows {
        words: &["read-setgroups"],
        answers: &["length"],
        rules: &[NoSuchCaller, NoSuchProcess, BufferShort],
    },
    Rows {
        words: &["setresuid"],
        answers: &["done", "done, both sets emptied", "done, effective set emptied"],
        rules: &[NoSuchCaller, IdUnmapped, IdNotPresent],
    },
    Rows {
        words: &["setresgid"],
        answers: &["done"],
        rules: &[NoSuchCaller, IdUnmapped, IdNotPresent],
    },
    Rows {
        words: &["setgroups"],
        answers: &["done"],
        rules: &[
            NoSuchCaller,
            NoSetgid,
            GroupMapUnwritten,
            SetgroupsDenied,
            TooManyGroups,
            GroupUnmapped,
        ],
    },
    Rows {
        words: &["capable"],
        answers: &["yes", "no"],
        rules: &[NoSuchCaller, NoSuchNamespace, CapabilityOverLast],
    },
    Rows {
        words: &["capset"],
        answers: &["done"],
        rules: &[NoSuchCaller, PermittedAdded, EffectiveNotPart],
    },
    Rows { words: &["getids"], answers: &["own IDs"], rules: &[NoSuchCaller] },
];

const TRANSLATE: &[Rows] = &[Rows {
    words: &["translate-uid-out", "translate-uid-back", "translate-gid-out", "translate-gid-back"],
    answers: &["ID", "unmapped"],
    rules: &[NoSuchCaller, NoSuchNamespace],
}];

const LINES: &[Rows] = &[
    Rows { words: &["line"], answers: &["blank", "comment", "fresh"], rules: &[] },
    Rows {
        words: &["malformed"],
        answers: &[
            "line too long",
            "unknown word",
            "too few arguments",
            "too many arguments",
            "fresh with arguments",
            "not a number",
            "number too large",
            "not a text",
            "bad escape",
            "missing quote",
            "junk after quote",
            "buffer too long",
            "too many IDs",
        ],
        rules: &[],
    },
];

/// A table of counts, with a row for everything that can come.
pub struct Counts {
    rows: BTreeMap<(usize, &'static str, Outcome), u64>,
    places: BTreeMap<&'static str, usize>,
    /// How many of the places are those of calls.
    calls: usize,
    expected: usize,
}

impl Counts {
    /// The table with all counts 0.
    pub fn new(with_translate: bool) -> Counts {
        let translate = if with_translate { TRANSLATE } else { &[] };
        let mut rows = BTreeMap::new();
        let mut places = BTreeMap::new();
        for group in CALLS.iter().chain(translate).chain(LINES) {
            let answers = group.answers.iter().map(|answer| Outcome::Is(answer));
            let rules = group.rules.iter().map(|rule| Outcome::Refused(*rule));
            let outcomes: Vec<Outcome> = answers.chain(rules).collect();
            for word in group.words {
                let place = places.len();
                places.insert(*word, place);
                rows.extend(outcomes.iter().map(|o| ((place, *word, *o), 0)));
            }
        }
        let lines: usize = LINES.iter().map(|group| group.words.len()).sum();
        Counts { expected: rows.len(), rows, calls: places.len() - lines, places }
    }

    /// Counts the lines of a script, which starts from the initial tables.
    pub fn add(&mut self, script: &[u8]) {
        let mut tables = Tables::initial();
        let script = script.strip_suffix(b"\n").unwrap_or(script);
        for line in script.split(|&byte| byte == b'\n') {
            match script::parse(line) {
                Item::Blank => self.one_more("line", Outcome::Is("blank")),
                Item::Comment => self.one_more("line", Outcome::Is("comment")),
                Item::Fresh => {
                    tables = Tables::initial();
                    self.one_more("line", Outcome::Is("fresh"));
                }
                Item::Malformed(kind) => self.one_more("malformed", Outcome::Is(kind.name())),
                Item::Call(call) => self.add_call(&mut tables, &call),
            }
        }
    }

    /// Counts the calls of a journal.
    pub fn add_journal(&mut self, journal: &[u8]) {
        let mut tables = Tables::initial();
        for entry in journal::read(journal).0 {
            self.add_call(&mut tables, &entry.to_call());
        }
    }

    fn add_call(&mut self, tables: &mut Tables, call: &Call) {
        let before = tables.processes.get(&call.caller()).cloned();
        let answer = tables.answer(call);
        let outcome = outcome(call, &answer, before.as_ref(), tables);
        self.one_more(show::word(call), outcome);
    }

    fn one_more(&mut self, word: &'static str, outcome: Outcome) {
        let place = self.places.get(word).copied().unwrap_or(usize::MAX);
        *self.rows.entry((place, word, outcome)).or_insert(0) += 1;
    }

    /// Whether all that can come has come, and nothing else.
    pub fn complete(&self) -> bool {
        self.rows.len() == self.expected && self.rows.values().all(|count| *count > 0)
    }

    /// Whether every call has given every answer and every number of a refusal that it can, by
    /// whichever rule.
    pub fn every_answer(&self) -> bool {
        let calls = self.rows.iter().filter(|((place, ..), _)| *place < self.calls);
        let all: BTreeSet<_> = calls.clone().map(|(row, _)| shown(row)).collect();
        let come = calls.filter(|(_, count)| **count > 0);
        all == come.map(|(row, _)| shown(row)).collect()
    }
}

impl fmt::Display for Counts {
    fn fmt(&self, f: &mut fmt::Formatter) -> fmt::Result {
        for ((_, word, outcome), count) in &self.rows {
            match outcome {
                Outcome::Is(name) => writeln!(f, "{count:>8}  {word:<20} {name}")?,
                Outcome::Refused(rule) => {
                    let number = rule.errno().number();
                    writeln!(f, "{count:>8}  {word:<20} {number} {rule:?}")?
                }
            }
        }
        Ok(())
    }
}

/// What a row is of a call's answer as it is printed: the number of a refusal in place of its rule.
fn shown((_, word, outcome): &(usize, &'static str, Outcome)) -> (&'static str, &'static str, u32) {
    match outcome {
        Outcome::Is(name) => (word, name, 0),
        Outcome::Refused(rule) => (word, "refused", rule.errno().number()),
    }
}

/// The row of a call's answer; `before` is the caller before the call, `tables` are those after it.
fn outcome(call: &Call, answer: &Answer, before: Option<&Process>, tables: &Tables) -> Outcome {
    Outcome::Is(match answer {
        Answer::Done => done(call, before, tables),
        Answer::Child(_) => "child",
        Answer::ChildInNamespace { .. } => "child in namespace",
        Answer::Namespace(_) => "namespace",
        Answer::Yes => "yes",
        Answer::No => "no",
        Answer::Id(_) => "ID",
        Answer::Unmapped => "unmapped",
        Answer::OwnIds { .. } => "own IDs",
        Answer::Length { length: 0, .. } => "length 0",
        Answer::Length { .. } => "length",
        Answer::Refused(rule) | Answer::ReadRefused { rule, .. } => return Outcome::Refused(*rule),
    })
}

/// The kind of a "done", by where a map's writer is and by what a change of user IDs does to the sets.
fn done(call: &Call, before: Option<&Process>, tables: &Tables) -> &'static str {
    let after = tables.processes.get(&call.caller());
    let (Some(before), Some(after)) = (before, after) else {
        return "done";
    };
    match call {
        Call::WriteMap { process, .. } => {
            if tables.processes[process].namespace == after.namespace {
                "done from the target"
            } else {
                "done from the parent"
            }
        }
        Call::SetIds { kind: Kind::User, .. } => {
            if after.permitted != before.permitted {
                "done, both sets emptied"
            } else if after.effective != before.effective {
                "done, effective set emptied"
            } else {
                "done"
            }
        }
        _ => "done",
    }
}
