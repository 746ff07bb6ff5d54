//! Random histories, and what holds of each of them: whoever takes the same
//! messages agrees, and every move is as if it were done alone on one copy.

use std::collections::{BTreeMap, VecDeque};

use super::*;
use crate::generate::random::Random;
use crate::lines::{Kind, PLACE};
use crate::settings::SettingKind;
use crate::summaries::SummaryKind;

/// A setting for each node.
type OneCopy = BTreeMap<u64, Setting>;

/// A history so far, and what its answers said.
struct History {
    random: Random,
    session: Session,
    memory: Memory,
    /// The open moves, each under its suite and slot.
    open: BTreeMap<(u64, u64), Moving>,
    /// The moves that each suite has sent and that wait, and those agreed.
    waiting: BTreeMap<u64, VecDeque<Moving>>,
    agreed: Vec<Moving>,
    /// The ruling on each agreed message that some suite has taken.
    rulings: Vec<Outcome>,
    /// The nodes that the commit under each stamp wrote, and what it left.
    written: Vec<Vec<u64>>,
    copies: Vec<OneCopy>,
}

/// What a move has done.
#[derive(Clone, Default)]
struct Moving {
    snapshot: u32,
    /// What it read that it had not written, each node once.
    reads: Vec<(u64, Setting)>,
    writes: OneCopy,
}

impl History {
    fn new(format: Format, kind: Kind, seed: u64) -> History {
        let mut random = Random::new(seed);
        let suites = random.between(1, 4) as u64;
        let count = random.between(1, 5);
        let nodes = random.different_nodes(count);
        let mut memory = any_memory(&mut random, format, suites, &nodes);
        let places = random.between(1, 50);
        memory.line = Line::new(kind, places * PLACE);
        let session = Session::new(format, suites, &nodes, &mut memory).unwrap();
        let start = nodes.iter().map(|node| (*node, format.setting.start()));
        History {
            random,
            copies: vec![start.collect()],
            session,
            memory,
            open: BTreeMap::new(),
            waiting: (1..=suites).map(|suite| (suite, VecDeque::new())).collect(),
            agreed: Vec::new(),
            rulings: Vec::new(),
            written: Vec::new(),
        }
    }

    /// Makes a random call; checks its answer, and that nothing has changed if
    /// it is refused.
    fn step(&mut self) {
        let (session, memory) = (self.session.clone(), self.memory.clone());
        let suites = self.session.suites.len();
        let at = SuiteSlot {
            suite: self.random.between(1, suites) as u64,
            slot: self.random.between(1, SLOTS) as u64,
        };
        let answered = match self.random.below(14) {
            0 | 1 => self.begin(at),
            2..=4 => self.read(at),
            5 | 6 => self.write(at),
            7 | 8 => self.commit(at),
            9 if self.random.one_in(4) => self.abandon(at),
            9 | 10 => self.session.collect(&self.memory, at).map(|_| ()),
            11 => self.settle(),
            _ => self.take(at.suite),
        };
        if answered.is_err() {
            assert_eq!(
                (session, memory),
                (self.session.clone(), self.memory.clone())
            );
        }
    }

    fn begin(&mut self, at: SuiteSlot) -> Result<(), Refusal> {
        let snapshot = self.session.begin(&self.memory, at)?;
        let begun = Moving {
            snapshot,
            ..Moving::default()
        };
        self.open.insert((at.suite, at.slot), begun);
        Ok(())
    }

    /// Reads what the move wrote last, or else what its snapshot has.
    fn read(&mut self, at: SuiteSlot) -> Result<(), Refusal> {
        let node = self.random.pick(&self.session.nodes);
        let setting = self.session.read(&self.memory, at, node);
        assert_ne!(setting, Err(Refusal::NoVersion));
        let setting = setting?;
        let moving = self.open.get_mut(&(at.suite, at.slot)).unwrap();
        if let Some(written) = moving.writes.get(&node) {
            assert_eq!(setting, *written);
        } else {
            assert_eq!(setting, self.copies[moving.snapshot as usize][&node]);
            if !moving.reads.iter().any(|read| read.0 == node) {
                moving.reads.push((node, setting));
            }
        }
        Ok(())
    }

    fn write(&mut self, at: SuiteSlot) -> Result<(), Refusal> {
        let node = self.random.pick(&self.session.nodes);
        let setting = self.random.setting(self.session.format.setting);
        self.session.write(&mut self.memory, at, node, setting)?;
        let moving = self.open.get_mut(&(at.suite, at.slot)).unwrap();
        moving.writes.insert(node, setting);
        Ok(())
    }

    fn commit(&mut self, at: SuiteSlot) -> Result<(), Refusal> {
        let answer = self.session.commit(&mut self.memory, at)?;
        let moving = self.open.remove(&(at.suite, at.slot)).unwrap();
        let stamp = self.session.suites[at.suite as usize - 1].stamp;
        let newer = |node: &u64| self.changed(*node, moving.snapshot, stamp);
        let clash = moving.reads.iter().map(|read| read.0).find(newer);
        let expected = match clash {
            _ if moving.writes.is_empty() => Commit::Read {
                snapshot: moving.snapshot,
            },
            Some(node) => Commit::Clash { node },
            None => Commit::Sent,
        };
        assert_eq!(answer, expected);
        if answer == Commit::Sent {
            let waiting = self.waiting.get_mut(&at.suite).unwrap();
            waiting.push_back(moving);
        }
        Ok(())
    }

    fn abandon(&mut self, at: SuiteSlot) -> Result<(), Refusal> {
        self.session.abandon(&self.memory, at)?;
        self.open.remove(&(at.suite, at.slot));
        Ok(())
    }

    /// The message says whose it is.
    fn settle(&mut self) -> Result<(), Refusal> {
        self.session.settle(&mut self.memory)?;
        let mut buffer = [0; 1162];
        let number = self.agreed.len() as u64 + 1;
        self.memory.line.fetch(number, &mut buffer)?;
        let waiting = self.waiting.get_mut(&u64::from(buffer[3])).unwrap();
        self.agreed.push(waiting.pop_front().unwrap());
        Ok(())
    }

    /// Every suite rules alike on the same message, and holds the same after it.
    fn take(&mut self, suite: u64) -> Result<(), Refusal> {
        let ruling = self.session.take(&mut self.memory, suite)?;
        let outcome = match ruling {
            Ruling::Outcome(outcome) => outcome,
            Ruling::Void(fault) => panic!("{fault:?}"),
        };
        let Suite { taken, stamp, .. } = self.session.suites[suite as usize - 1];
        if taken > self.rulings.len() {
            self.check_ruling(outcome);
        }
        assert_eq!(self.rulings[taken - 1], outcome);
        let copy = &self.copies[stamp as usize];
        for node in &self.session.nodes {
            let places = self.session.versions_of(suite as usize - 1, *node)?;
            let versions = &self.memory.versions[places];
            let newest = visible(versions, u32::MAX).unwrap();
            assert_eq!(versions[newest].setting, copy[node]);
        }
        Ok(())
    }

    /// Checks the first ruling on the next message by the commits before it.
    fn check_ruling(&mut self, outcome: Outcome) {
        let moving = self.agreed[self.rulings.len()].clone();
        let stamp = self.written.len() as u32;
        let summary = self.session.format.summary;
        let reads: Vec<u64> = moving.reads.iter().map(|read| read.0).collect();
        let packed = summary.pack(&reads).unwrap();
        let clash = self.session.nodes.iter().find(|node| {
            self.changed(**node, moving.snapshot, stamp) && summary.names(&packed, **node).unwrap()
        });
        match clash {
            Some(node) => assert_eq!(outcome, Outcome::Clash { node: *node }),
            None => {
                assert_eq!(outcome, Outcome::Done { stamp: stamp + 1 });
                self.do_alone(&moving);
            }
        }
        self.rulings.push(outcome);
    }

    /// Does the move on the one copy: it reads the same there.
    fn do_alone(&mut self, moving: &Moving) {
        let mut copy = self.copies[self.written.len()].clone();
        for (node, setting) in &moving.reads {
            assert_eq!(copy[node], *setting);
        }
        copy.extend(moving.writes.clone());
        self.copies.push(copy);
        self.written.push(moving.writes.keys().copied().collect());
    }

    /// Whether a commit above the snapshot and up to the stamp wrote the node.
    fn changed(&self, node: u64, snapshot: u32, stamp: u32) -> bool {
        let commits = &self.written[snapshot as usize..stamp as usize];
        commits.iter().any(|written| written.contains(&node))
    }
}

/// All kinds of setting and of summary.
fn formats() -> Vec<Format> {
    let settings = [SettingKind::Colour, SettingKind::Link];
    let with_each = |setting| {
        let summaries = [SummaryKind::Exact, SummaryKind::Bloom].into_iter();
        summaries.map(move |summary| Format { setting, summary })
    };
    settings.into_iter().flat_map(with_each).collect()
}

/// Memory of the right size that holds anything.
fn any_memory(random: &mut Random, format: Format, suites: u64, nodes: &[u64]) -> Memory {
    let versions = suites as usize * nodes.len() * VERSIONS;
    let writes = suites as usize * SLOTS * MOST_WRITES;
    Memory {
        versions: (0..versions)
            .map(|_| Version {
                stamp: random.stamp(),
                setting: random.setting(format.setting),
            })
            .collect(),
        writes: (0..writes)
            .map(|_| {
                let known = random.pick(nodes);
                let node = if random.one_in(2) {
                    known
                } else {
                    random.node()
                };
                (node, random.setting(format.setting))
            })
            .collect(),
        line: Line::new(Kind::FirstCome, PLACE),
    }
}

#[test]
fn histories_are_those_of_one_copy() {
    for format in formats() {
        for kind in [Kind::FirstCome, Kind::Turn] {
            let mut commits = 0;
            for seed in 0..60 {
                let mut history = History::new(format, kind, seed);
                for _ in 0..600 {
                    history.step();
                }
                commits += history.written.len();
            }
            assert!(commits > 300, "{format:?} {kind:?}: {commits} commits");
        }
    }
}

/// Whatever the memory holds and whichever line is handed, every call answers,
/// and a refused one changes nothing.
#[test]
fn memory_may_hold_anything() {
    for format in formats() {
        for seed in 0..60 {
            let mut random = Random::new(seed);
            let suites = random.between(1, 3) as u64;
            let count = random.between(1, 3);
            let nodes = random.different_nodes(count);
            let mut memory = any_memory(&mut random, format, suites, &nodes);
            let mut session = Session::new(format, suites, &nodes, &mut memory).unwrap();
            for _ in 0..300 {
                if random.one_in(5) {
                    memory = any_memory(&mut random, format, suites, &nodes);
                    memory.line = Line::new(Kind::Turn, random.between(1, 20) * PLACE);
                }
                let before = (session.clone(), memory.clone());
                if any_call(&mut random, &mut session, &mut memory).is_err() {
                    assert_eq!((session.clone(), memory.clone()), before);
                }
            }
        }
    }
}

fn any_call(
    random: &mut Random,
    session: &mut Session,
    memory: &mut Memory,
) -> Result<(), Refusal> {
    let at = SuiteSlot {
        suite: random.below(4) as u64,
        slot: random.below(6) as u64,
    };
    let node = random.pick(&session.nodes);
    let setting = random.setting(session.format.setting);
    match random.below(9) {
        0 => session.begin(memory, at).map(|_| ()),
        1 => session.read(memory, at, node).map(|_| ()),
        2 | 3 => session.write(memory, at, node, setting),
        4 => session.commit(memory, at).map(|_| ()),
        5 => session.collect(memory, at).map(|_| ()),
        6 if random.one_in(4) => session.abandon(memory, at),
        7 => session.settle(memory),
        _ => session.take(memory, at.suite).map(|_| ()),
    }
}
