//! What the session is like, and what can be picked of it.

use super::{Misnamed, Program, Stream};
use crate::grade::Grade;
use crate::session::{Slot, SuiteSlot, SLOTS};
use crate::settings::SettingKind;
use crate::summaries::SummaryKind;

impl<P: Program> Stream<P> {
    pub fn grade(&self) -> &Grade {
        self.program.grade().expect("the session is made")
    }

    pub fn nodes(&self) -> Vec<u64> {
        self.grade().session.nodes.clone()
    }

    /// The number of suites.
    pub fn suites(&self) -> u64 {
        self.grade().session.suites.len() as u64
    }

    pub fn any_suite(&mut self) -> u64 {
        let suites = self.suites() as usize;
        self.random.between(1, suites) as u64
    }

    pub fn any_slot(&mut self) -> SuiteSlot {
        SuiteSlot {
            suite: self.any_suite(),
            slot: self.random.between(1, SLOTS) as u64,
        }
    }

    /// A node at which moves meet, or now and then any of the session.
    pub fn any_node(&mut self) -> u64 {
        if self.random.one_in(5) {
            let nodes = self.nodes();
            self.random.pick(&nodes)
        } else {
            self.random.pick(&self.hot)
        }
    }

    /// At most so many different nodes.
    pub fn some_nodes(&mut self, most: usize) -> Vec<u64> {
        let mut nodes = Vec::new();
        for _ in 0..self.random.between(1, most) {
            let node = self.any_node();
            if !nodes.contains(&node) {
                nodes.push(node);
            }
        }
        nodes
    }

    pub fn slot(&self, at: SuiteSlot) -> &Slot {
        &self.grade().session.suites[at.suite as usize - 1].slots[at.slot as usize - 1]
    }

    pub fn is_open(&self, at: SuiteSlot) -> bool {
        matches!(self.slot(at), Slot::Open(_))
    }

    /// How many messages the line can hold.
    pub fn places(&self) -> usize {
        self.grade().memory.line.limit()
    }

    pub fn line_is_full(&self) -> bool {
        self.grade().memory.line.held() == self.places()
    }

    /// How many messages are agreed.
    fn agreed(&self) -> usize {
        self.grade()
            .memory
            .line
            .count()
            .expect("the line has places")
    }

    pub fn waits(&self) -> bool {
        self.agreed() < self.grade().memory.line.held()
    }

    /// Whether the suite has not taken all that is agreed.
    pub fn lags(&self, suite: u64) -> bool {
        self.grade().session.suites[suite as usize - 1].taken < self.agreed()
    }

    /// Suites, different ones as long as there are some left.
    pub fn different_suites(&mut self, count: usize) -> Vec<u64> {
        let mut suites: Vec<u64> = (1..=self.suites()).collect();
        self.random.shuffle(&mut suites);
        suites.into_iter().cycle().take(count).collect()
    }

    pub fn setting_kind(&self) -> SettingKind {
        self.grade().session.format.setting
    }

    /// Another number that a Bloom summary of these names by chance.
    pub fn misnamed_by(&mut self, namers: &[u64]) -> Misnamed {
        let summary = SummaryKind::Bloom;
        let packed = summary.pack(namers).expect("they are not too many");
        loop {
            let node = self.random.number();
            if summary.names(&packed, node) == Some(true) && !namers.contains(&node) {
                let namers = namers.to_vec();
                return Misnamed { node, namers };
            }
        }
    }
}
