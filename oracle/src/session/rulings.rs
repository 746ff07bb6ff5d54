//! Rulings: what a suite decides on the next agreed message, and what a commit
//! leaves.

use super::{newest_stamp, visible, write_places, Memory, Session, Slot, Version, VERSIONS};
use crate::lines::LONGEST_MESSAGE;
use crate::message::{self, Fault, Message};
use crate::refusal::Refusal;

/// A ruling on a message that has no fault.
#[derive(Clone, Copy, Debug, PartialEq, Eq)]
pub enum Outcome {
    Clash { node: u64 },
    Done { stamp: u32 },
}

/// A suite's decision on a message.
#[derive(Clone, Copy, Debug, PartialEq, Eq)]
pub enum Ruling {
    Void(Fault),
    Outcome(Outcome),
}

impl Session {
    pub fn take(&mut self, memory: &mut Memory, suite: u64) -> Result<Ruling, Refusal> {
        let suite = self.suite(memory, suite)?;
        let number = self.suites[suite].taken + 1;
        if number > memory.line.count()? {
            return Err(Refusal::AllTaken);
        }
        let mut buffer = [0; LONGEST_MESSAGE];
        let length = memory.line.fetch(number as u64, &mut buffer)?;
        self.suites[suite].taken = number;
        let reader = message::Session {
            suites: self.suites.len() as u8,
            stamp: self.suites[suite].stamp,
            nodes: self.nodes.clone(),
        };
        Ok(
            match message::read(self.format, &reader, &buffer[..length]) {
                Err(fault) => Ruling::Void(fault),
                Ok(message) => Ruling::Outcome(self.certify(memory, suite, &message)),
            },
        )
    }

    /// Rules on a message without a fault; applies it if it commits.
    fn certify(&mut self, memory: &mut Memory, suite: usize, message: &Message) -> Outcome {
        let outcome = match self.clash(memory, suite, message) {
            Some(node) => Outcome::Clash { node },
            None => Outcome::Done {
                stamp: self.apply(memory, suite, message),
            },
        };
        let slot = usize::from(message.slot) - 1;
        let own = &mut self.suites[suite].slots[slot];
        if usize::from(message.suite) == suite + 1 && *own == Slot::Sent {
            *own = Slot::Ruled(outcome);
        }
        outcome
    }

    /// The first node that the message's move read and that is newer than its
    /// snapshot.
    fn clash(&self, memory: &Memory, suite: usize, message: &Message) -> Option<u64> {
        let places = suite * self.nodes.len() * VERSIONS;
        let versions = memory.versions[places..].chunks(VERSIONS);
        let newer = |versions| newest_stamp(versions) > message.snapshot;
        let named = |node| self.format.summary.names(&message.summary, node) == Some(true);
        let mut nodes = self.nodes.iter().copied().zip(versions);
        let clash = nodes.find(|(node, versions)| newer(versions) && named(*node));
        clash.map(|(node, _)| node)
    }

    /// Keeps what the message writes under the next stamp.
    fn apply(&mut self, memory: &mut Memory, suite: usize, message: &Message) -> u32 {
        let stamp = self.suites[suite].stamp + 1;
        self.suites[suite].stamp = stamp;
        for (node, setting) in &message.writes {
            let spare = self.spare(memory, suite, *node);
            memory.versions[spare] = Version {
                stamp,
                setting: *setting,
            };
        }
        stamp
    }

    /// The first place of the node that no open move of the suite would read.
    fn spare(&self, memory: &Memory, suite: usize, node: u64) -> usize {
        let places = self.versions_of(suite, node).expect("the node is known");
        let versions = &memory.versions[places.clone()];
        let mut needed = [false; VERSIONS];
        for (slot, state) in self.suites[suite].slots.iter().enumerate() {
            if let Slot::Open(open) = state {
                let writes = &memory.writes[write_places((suite, slot))][..open.writes];
                if !writes.iter().any(|write| write.0 == node) {
                    if let Some(place) = visible(versions, open.snapshot) {
                        needed[place] = true;
                    }
                }
            }
        }
        let spare = needed.iter().position(|needed| !needed);
        places.start + spare.expect("there are more places than slots")
    }
}
