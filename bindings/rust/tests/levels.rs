//! Translation of IDs and of lists through 32 levels of random maps, against the reference program. A map cuts the lines
//! of the map above into up to five pieces and puts them into another order.

use oarhatchet::{Tables, NO_ID};
use reference::random::Random;
use reference::{Answer, Call, Direction, Kind};

mod common;

use common::{outcome, outcome_on_reference, Outcome};

/// How many IDs the maps have, from 0 on.
const IDS: u64 = 500;
/// Where their kernel IDs start, and how far the lines of level 1 lie apart.
const KERNEL: u64 = 100_000;
const GAP: u64 = 100;
const LEVELS: u64 = 32;
const CHAINS: u64 = 300;
const KINDS: [Kind; 2] = [Kind::User, Kind::Group];

/// The most lines of a map.
const MAX_LINES: u64 = 5;

/// A start and a count.
type Range = (u64, u64);

/// Cuts one of the ranges in two.
fn cut(random: &mut Random, ranges: &mut Vec<Range>) {
    let place = random.index(ranges.len());
    let (start, count) = ranges[place];
    if count > 1 {
        let first = 1 + random.below(count - 1);
        ranges[place] = (start, first);
        ranges.push((start + first, count - first));
    }
}

/// A map of all the ranges above, cut further and in another order, and its ranges on the inside.
fn map_text(random: &mut Random, above: &[Range]) -> (String, Vec<Range>) {
    let mut pieces = above.to_vec();
    for _ in 0..random.below(1 + MAX_LINES - above.len() as u64) {
        cut(random, &mut pieces);
    }
    for last in (1..pieces.len()).rev() {
        pieces.swap(last, random.index(last + 1));
    }
    let (mut text, mut ranges) = (String::new(), Vec::new());
    let mut inside = 0;
    for (parent, count) in pieces {
        text += &format!("{inside} {parent} {count}\n");
        ranges.push((inside, count));
        inside += count;
    }
    (text, ranges)
}

/// The IDs out of namespace 0, as up to five ranges that lie apart.
fn kernel_ranges(random: &mut Random) -> Vec<Range> {
    let mut ranges = vec![(KERNEL, IDS)];
    for _ in 0..random.below(MAX_LINES) {
        cut(random, &mut ranges);
    }
    ranges.sort_unstable();
    let apart = |(place, range): (usize, &Range)| (range.0 + place as u64 * GAP, range.1);
    ranges.iter().enumerate().map(apart).collect()
}

/// Both implementations, which have to come to the same.
struct Both {
    tables: Tables,
    reference: reference::Tables,
    /// For each kind, the ranges that the deepest map has on the inside.
    ranges: [Vec<Range>; 2],
}

impl Both {
    fn come_to(&mut self, call: &Call) -> Outcome {
        let given = outcome(&mut self.tables, call);
        assert_eq!(given, outcome_on_reference(&mut self.reference, call), "{call:?}");
        given
    }

    fn make(&mut self, call: &Call) -> Answer {
        match self.come_to(call) {
            Outcome::Answer(answer) => answer,
            Outcome::Refused { number, .. } => panic!("{call:?} is refused with {number}"),
        }
    }

    /// Makes a namespace below that of the process one level up, with such maps, and its process the root of it.
    fn descend(&mut self, random: &mut Random, level: u64) {
        let (caller, process) = (level, level + 1);
        let made = Answer::ChildInNamespace { child: process, namespace: level };
        assert_eq!(self.make(&Call::Clone { caller }), made);
        // No map is written yet, so that each of the groups that it has from its parent shows as unmapped.
        self.make(&Call::GetIds { caller: process });
        for (place, kind) in KINDS.into_iter().enumerate() {
            let (text, ranges) = map_text(random, &self.ranges[place]);
            self.make(&Call::WriteMap { kind, caller, process, text: text.into_bytes() });
            self.ranges[place] = ranges;
        }
        for kind in KINDS {
            self.make(&Call::SetIds { kind, caller: process, ids: [0; 3] });
        }
    }

    /// Sets as many random groups and asks for them; then tries the same with one that is not mapped.
    fn list(&mut self, random: &mut Random, caller: u64, count: u64) {
        let mut groups: Vec<u32> = (0..count).map(|_| random.below(IDS) as u32).collect();
        self.make(&Call::Setgroups { caller, groups: groups.clone() });
        let Answer::OwnIds { groups: seen, .. } = self.make(&Call::GetIds { caller }) else {
            panic!("no own IDs")
        };
        assert_eq!(seen, groups);
        if let Some(place) = (count > 0).then(|| random.index(count as usize)) {
            groups[place] = [IDS as u32, NO_ID][random.index(2)];
            let refused = self.come_to(&Call::Setgroups { caller, groups });
            assert!(matches!(refused, Outcome::Refused { number: 22, .. }));
        }
    }

    fn translate(&mut self, direction: Direction, kind: Kind, namespace: u64, id: u64) -> Answer {
        self.make(&Call::Translate { kind, direction, caller: 1, namespace, id: id as u32 })
    }
}

#[test]
fn random_maps_translate_alike_at_every_level() {
    for seed in 0..CHAINS {
        let mut random = Random::new(seed);
        let ranges = KINDS.map(|_| kernel_ranges(&mut random));
        let mut both =
            Both { tables: Tables::new(), reference: reference::Tables::initial(), ranges };
        for level in 1..=LEVELS {
            both.descend(&mut random, level);
            for kind in KINDS {
                for _ in 0..50 {
                    let id = random.below(IDS);
                    let out = both.translate(Direction::Out, kind, level, id);
                    let Answer::Id(kernel) = out else { panic!("{id} is unmapped") };
                    let back = both.translate(Direction::Back, kind, level, u64::from(kernel));
                    assert_eq!(back, Answer::Id(id as u32));
                    let near = KERNEL - GAP + random.below(IDS + 6 * GAP);
                    both.translate(Direction::Back, kind, level, near);
                }
                both.translate(Direction::Out, kind, level, IDS);
            }
            let count = random.below(17);
            both.list(&mut random, level + 1, count);
        }
    }
}
