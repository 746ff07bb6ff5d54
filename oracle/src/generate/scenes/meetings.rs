//! The scenes in which moves meet.

use super::calls::Step;
use super::{Program, Stream};
use crate::session::{Slot, SuiteSlot, SLOTS};

impl<P: Program> Stream<P> {
    pub fn crossing(&mut self) {
        let movers = self.begin_several();
        let mut plans = Vec::new();
        for at in &movers {
            let reads = self.some_nodes(3).into_iter().map(Step::Read);
            let writes = self.some_nodes(2).into_iter().map(Step::Write);
            let mut steps: Vec<Step> = reads.chain(writes).collect();
            self.random.shuffle(&mut steps);
            plans.push((*at, steps));
        }
        self.interleave(plans);
        self.commit_all(movers);
        self.deliver();
    }

    pub fn blind(&mut self) {
        let movers = self.begin_several();
        let nodes = self.some_nodes(3);
        let writes: Vec<Step> = nodes.into_iter().map(Step::Write).collect();
        self.interleave(movers.iter().map(|at| (*at, writes.clone())).collect());
        self.commit_all(movers);
        self.deliver();
    }

    fn begin_several(&mut self) -> Vec<SuiteSlot> {
        let count = self.random.between(2, 4);
        self.begin_moves(count)
    }

    /// Begins so many moves, at different suites if there are enough.
    pub fn begin_moves(&mut self, count: usize) -> Vec<SuiteSlot> {
        let suites = self.different_suites(count);
        suites
            .into_iter()
            .map(|suite| self.begin_at(suite))
            .collect()
    }

    fn commit_all(&mut self, mut movers: Vec<SuiteSlot>) {
        self.random.shuffle(&mut movers);
        for at in movers {
            self.commit(at);
            if self.waits() && self.random.one_in(4) {
                self.settle();
            }
        }
    }

    /// Some moves read; commits land, mostly to what they have read; they read
    /// again, and end in some way.
    pub fn landing(&mut self) {
        let suite = self.any_suite();
        let mut movers = Vec::new();
        for _ in 0..self.random.between(1, 2) {
            let at = self.begin_at(suite);
            let nodes = self.some_nodes(6);
            if self.random.one_in(4) {
                self.write(at, nodes[0]);
            }
            for node in &nodes {
                self.read(at, *node);
            }
            movers.push((at, nodes));
        }
        for _ in 0..self.random.pick(&[0, 1, 1, 2]) {
            let others = self.some_nodes(3);
            let mut changed = self
                .random
                .pick(&[&others, &movers[0].1, &movers[0].1])
                .clone();
            self.random.shuffle(&mut changed);
            changed.truncate(self.random.between(1, 3));
            self.land(&changed, suite);
        }
        for (at, mut nodes) in movers {
            self.random.shuffle(&mut nodes);
            for node in nodes {
                self.read(at, node);
            }
            if !self.random.one_in(3) {
                let node = self.any_node();
                self.write(at, node);
                self.read(at, node);
            }
            self.end(at);
        }
        self.deliver();
    }

    /// One suite takes nothing while commits land, and then sends a move that
    /// has read what they changed. That needs another suite.
    pub fn lagging(&mut self) {
        let late = self.any_suite();
        let taker = late % self.suites() + 1;
        if taker == late {
            return self.crossing();
        }
        let nodes = self.some_nodes(5);
        for _ in 0..self.random.between(1, 2) {
            let mut changed = nodes.clone();
            self.random.shuffle(&mut changed);
            let count = self.random.between(1, changed.len());
            self.land(&changed[..count], taker);
        }
        self.send_old(late, &nodes);
        self.deliver();
    }

    /// A move of the suite reads the nodes in any order, writes, and is sent.
    fn send_old(&mut self, suite: u64, nodes: &[u64]) {
        let at = self.begin_at(suite);
        let mut steps: Vec<Step> = nodes.iter().copied().map(Step::Read).collect();
        steps.push(Step::Write(self.any_node()));
        self.random.shuffle(&mut steps);
        self.interleave(vec![(at, steps)]);
        self.commit(at);
    }

    /// The slots of a suite are opened one after the other, and a node changes
    /// in between and after.
    pub fn snapshots(&mut self) {
        let suite = self.any_suite();
        let node = self.any_node();
        // With one suite, a slot has to be left for the commits.
        let most = if self.suites() == 1 { SLOTS - 1 } else { SLOTS };
        let mut slots: Vec<u64> = (1..=SLOTS as u64).collect();
        self.random.shuffle(&mut slots);
        slots.truncate(most);
        let movers: Vec<SuiteSlot> = slots
            .iter()
            .map(|slot| SuiteSlot { suite, slot: *slot })
            .collect();
        for at in &movers {
            self.make_idle(*at);
        }
        for at in &movers {
            self.begin(*at);
            match self.random.below(6) {
                0 => self.write(*at, node),
                1 => {
                    let other = self.any_node();
                    self.write(*at, other);
                }
                2 | 3 => self.read(*at, node),
                _ => {}
            }
            if !self.random.one_in(5) {
                self.land(&[node], suite);
            }
        }
        for _ in 0..self.random.below(3) {
            self.land(&[node], suite);
            self.read_all(&movers, node);
        }
        self.read_all(&movers, node);
        let again = self.random.pick(&movers);
        self.make_idle(again);
        self.begin(again);
        self.land(&[node], suite);
        self.read_all(&movers, node);
        for at in movers {
            if self.random.one_in(2) {
                let any = self.any_node();
                self.write(at, any);
            }
            self.end(at);
        }
        self.deliver();
    }

    /// Reads the node in all the moves, and now and then another before it.
    fn read_all(&mut self, movers: &[SuiteSlot], node: u64) {
        let mut movers = movers.to_vec();
        self.random.shuffle(&mut movers);
        for at in movers {
            if self.random.one_in(3) {
                let other = self.any_node();
                self.read(at, other);
            }
            self.read(at, node);
        }
    }

    pub fn wander(&mut self) {
        let count = self.random.between(1, 3);
        let suites = self.different_suites(count);
        for _ in 0..self.random.between(20, 50) {
            let suite = self.random.pick(&suites);
            let slot = self.random.between(1, SLOTS) as u64;
            match self.random.below(10) {
                0 => self.settle(),
                1 => self.take(suite),
                _ => self.go_on(SuiteSlot { suite, slot }),
            }
        }
    }

    /// A call that the state of the slot mostly allows.
    fn go_on(&mut self, at: SuiteSlot) {
        match (self.slot(at).clone(), self.random.below(10)) {
            (Slot::Idle, _) => self.begin(at),
            (Slot::Open(_), 0..=4) => {
                let node = self.any_node();
                self.read(at, node);
            }
            (Slot::Open(_), 5..=7) => {
                let node = self.any_node();
                self.write(at, node);
            }
            (Slot::Open(_), 8) => self.end(at),
            (Slot::Open(_), _) => {
                self.commit(at);
            }
            (Slot::Sent | Slot::Ruled(_), _) => self.collect(at),
        }
    }
}
