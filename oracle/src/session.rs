//! The session: suites that work on one grade, each with a full copy of it.
//!
//! Its calls work in memory that they are handed, whatever that holds. They
//! count suites and slots from 1; inside, both are counted from 0.

#[cfg(test)]
mod histories;
mod rulings;
#[cfg(test)]
mod tests;

use std::ops::Range;

use crate::lines::{Line, MOST_PLACES};
use crate::message::{compose, Format, Move, Write, MOST_SLOTS, MOST_SUITES, MOST_WRITES};
use crate::refusal::Refusal;
use crate::settings::Setting;
use crate::summaries::MOST_NUMBERS;
pub use rulings::{Outcome, Ruling};

/// The most nodes that a session has.
pub const MOST_NODES: usize = 64;

/// How many versions of a node are kept at a suite.
pub const VERSIONS: usize = 5;

/// How many slots a suite has.
pub const SLOTS: usize = MOST_SLOTS as usize;

/// One version of a node at a suite.
#[derive(Clone, Copy, Debug, PartialEq, Eq)]
pub struct Version {
    pub stamp: u32,
    pub setting: Setting,
}

/// What every call is handed.
#[derive(Clone, Debug, PartialEq, Eq)]
pub struct Memory {
    /// Five for each node of each suite: suite 1's first, of each suite those of
    /// the first node first.
    pub versions: Vec<Version>,
    /// Sixteen for each slot of each suite, in the same manner.
    pub writes: Vec<Write>,
    pub line: Line,
}

/// A slot as the calls name it.
#[derive(Clone, Copy, Debug, PartialEq, Eq)]
pub struct SuiteSlot {
    pub suite: u64,
    pub slot: u64,
}

/// The session's own record.
#[derive(Clone, Debug, PartialEq, Eq)]
pub struct Session {
    pub format: Format,
    pub nodes: Vec<u64>,
    pub suites: Vec<Suite>,
}

#[derive(Clone, Debug, Default, PartialEq, Eq)]
pub struct Suite {
    /// How many commits it has applied.
    pub stamp: u32,
    /// How many messages it has taken.
    pub taken: usize,
    pub slots: [Slot; SLOTS],
}

#[derive(Clone, Debug, Default, PartialEq, Eq)]
pub enum Slot {
    #[default]
    Idle,
    Open(Open),
    Sent,
    Ruled(Outcome),
}

/// An open move. Its writes stand in the slot's write places.
#[derive(Clone, Debug, PartialEq, Eq)]
pub struct Open {
    pub snapshot: u32,
    /// The nodes that it has read, in order of first read.
    pub reads: Vec<u64>,
    pub writes: usize,
}

/// What a commit answers.
#[derive(Clone, Copy, Debug, PartialEq, Eq)]
pub enum Commit {
    Read { snapshot: u32 },
    Clash { node: u64 },
    Sent,
}

impl Session {
    pub fn new(
        format: Format,
        suites: u64,
        nodes: &[u64],
        memory: &mut Memory,
    ) -> Result<Session, Refusal> {
        if !(1..=u64::from(MOST_SUITES)).contains(&suites) {
            return Err(Refusal::SuiteCount);
        }
        if !(1..=MOST_NODES).contains(&nodes.len()) {
            return Err(Refusal::NodeCount);
        }
        if has_repeats(nodes) {
            return Err(Refusal::RepeatedNode);
        }
        let session = Session {
            format,
            nodes: nodes.to_vec(),
            suites: vec![Suite::default(); suites as usize],
        };
        session.check_memory(memory)?;
        memory.versions.fill(Version {
            stamp: 0,
            setting: format.setting.start(),
        });
        Ok(session)
    }

    pub fn begin(&mut self, memory: &Memory, at: SuiteSlot) -> Result<u32, Refusal> {
        let place = self.place(memory, at)?;
        if *self.slot(place) != Slot::Idle {
            return Err(Refusal::SlotState);
        }
        let snapshot = self.suites[place.0].stamp;
        *self.slot(place) = Slot::Open(Open {
            snapshot,
            reads: Vec::new(),
            writes: 0,
        });
        Ok(snapshot)
    }

    pub fn read(&mut self, memory: &Memory, at: SuiteSlot, node: u64) -> Result<Setting, Refusal> {
        let place = self.place(memory, at)?;
        let mut open = self.open(place)?;
        let versions = &memory.versions[self.versions_of(place.0, node)?];
        let writes = &memory.writes[write_places(place)][..open.writes];
        if let Some(write) = writes.iter().find(|write| write.0 == node) {
            return Ok(write.1);
        }
        let first = !open.reads.contains(&node);
        if first && open.reads.len() == MOST_NUMBERS {
            return Err(Refusal::MoveFull);
        }
        let visible = visible(versions, open.snapshot).ok_or(Refusal::NoVersion)?;
        if first {
            open.reads.push(node);
            *self.slot(place) = Slot::Open(open);
        }
        Ok(versions[visible].setting)
    }

    pub fn write(
        &mut self,
        memory: &mut Memory,
        at: SuiteSlot,
        node: u64,
        setting: Setting,
    ) -> Result<(), Refusal> {
        let place = self.place(memory, at)?;
        let mut open = self.open(place)?;
        self.versions_of(place.0, node)?;
        let writes = &mut memory.writes[write_places(place)];
        let mut own = writes[..open.writes].iter_mut();
        if let Some(write) = own.find(|write| write.0 == node) {
            write.1 = setting;
            return Ok(());
        }
        if open.writes == MOST_WRITES {
            return Err(Refusal::MoveFull);
        }
        writes[open.writes] = (node, setting);
        open.writes += 1;
        *self.slot(place) = Slot::Open(open);
        Ok(())
    }

    pub fn commit(&mut self, memory: &mut Memory, at: SuiteSlot) -> Result<Commit, Refusal> {
        let place = self.place(memory, at)?;
        let open = self.open(place)?;
        let snapshot = open.snapshot;
        if open.writes == 0 {
            *self.slot(place) = Slot::Idle;
            return Ok(Commit::Read { snapshot });
        }
        for node in &open.reads {
            let versions = &memory.versions[self.versions_of(place.0, *node)?];
            if newest_stamp(versions) > snapshot {
                *self.slot(place) = Slot::Idle;
                return Ok(Commit::Clash { node: *node });
            }
        }
        let described = Move {
            suite: at.suite as u8,
            slot: at.slot as u8,
            snapshot,
            reads: open.reads,
            writes: memory.writes[write_places(place)][..open.writes].to_vec(),
        };
        let message = compose(self.format, &described).expect("a move makes a message");
        memory.line.offer(at.suite, &message)?;
        *self.slot(place) = Slot::Sent;
        Ok(Commit::Sent)
    }

    pub fn abandon(&mut self, memory: &Memory, at: SuiteSlot) -> Result<(), Refusal> {
        let place = self.place(memory, at)?;
        self.open(place)?;
        *self.slot(place) = Slot::Idle;
        Ok(())
    }

    pub fn collect(&mut self, memory: &Memory, at: SuiteSlot) -> Result<Outcome, Refusal> {
        let place = self.place(memory, at)?;
        match *self.slot(place) {
            Slot::Idle | Slot::Open(_) => Err(Refusal::SlotState),
            Slot::Sent => Err(Refusal::NotRuled),
            Slot::Ruled(outcome) => {
                *self.slot(place) = Slot::Idle;
                Ok(outcome)
            }
        }
    }

    pub fn settle(&self, memory: &mut Memory) -> Result<(), Refusal> {
        self.check_memory(memory)?;
        memory.line.settle()
    }

    fn check_memory(&self, memory: &Memory) -> Result<(), Refusal> {
        let suites = self.suites.len();
        let sizes_fit = memory.versions.len() == suites * self.nodes.len() * VERSIONS
            && memory.writes.len() == suites * SLOTS * MOST_WRITES
            && (1..=MOST_PLACES).contains(&memory.line.limit());
        if sizes_fit {
            Ok(())
        } else {
            Err(Refusal::MemorySize)
        }
    }

    /// The suite and the slot, both counted from 0.
    fn place(&self, memory: &Memory, at: SuiteSlot) -> Result<(usize, usize), Refusal> {
        let suite = self.suite(memory, at.suite)?;
        let slot = counted_from_0(at.slot, SLOTS)?;
        Ok((suite, slot))
    }

    /// The suite, counted from 0.
    fn suite(&self, memory: &Memory, suite: u64) -> Result<usize, Refusal> {
        self.check_memory(memory)?;
        counted_from_0(suite, self.suites.len())
    }

    fn slot(&mut self, (suite, slot): (usize, usize)) -> &mut Slot {
        &mut self.suites[suite].slots[slot]
    }

    /// The open move of the slot, for the call to change and put back.
    fn open(&self, (suite, slot): (usize, usize)) -> Result<Open, Refusal> {
        match &self.suites[suite].slots[slot] {
            Slot::Open(open) => Ok(open.clone()),
            _ => Err(Refusal::SlotState),
        }
    }

    /// Where the versions of the node at the suite stand.
    fn versions_of(&self, suite: usize, node: u64) -> Result<Range<usize>, Refusal> {
        let mut nodes = self.nodes.iter();
        let index = nodes
            .position(|other| *other == node)
            .ok_or(Refusal::UnknownNode)?;
        let first = (suite * self.nodes.len() + index) * VERSIONS;
        Ok(first..first + VERSIONS)
    }
}

/// Whether a number stands in the list twice.
pub fn has_repeats(numbers: &[u64]) -> bool {
    let mut sorted = numbers.to_vec();
    sorted.sort_unstable();
    sorted.windows(2).any(|pair| pair[0] == pair[1])
}

/// A number from 1 to the most as one that is counted from 0.
fn counted_from_0(number: u64, most: usize) -> Result<usize, Refusal> {
    if (1..=most as u64).contains(&number) {
        Ok(number as usize - 1)
    } else {
        Err(Refusal::NoSuchSlot)
    }
}

/// Where the write places of the slot stand.
fn write_places((suite, slot): (usize, usize)) -> Range<usize> {
    let first = (suite * SLOTS + slot) * MOST_WRITES;
    first..first + MOST_WRITES
}

/// The version with the highest stamp that is not above the snapshot, the first
/// of equals.
fn visible(versions: &[Version], snapshot: u32) -> Option<usize> {
    let stamp = |at: &usize| versions[*at].stamp;
    // The last of equals is found, so from the last to the first.
    let under = (0..VERSIONS).rev().filter(|at| stamp(at) <= snapshot);
    under.max_by_key(stamp)
}

fn newest_stamp(versions: &[Version]) -> u32 {
    let stamps = versions.iter().map(|version| version.stamp);
    stamps.max().expect("a node has versions")
}
