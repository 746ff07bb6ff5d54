//! The scenes in which it shows which line and which summary a session has.

use super::{Program, Stream};
use crate::session::{Slot, SuiteSlot, SLOTS};

impl<P: Program> Stream<P> {
    /// Moves of several suites write one node, and wait before any is settled;
    /// a suite looks at the node after each ruling.
    pub fn queues(&mut self) {
        let most = SLOTS * self.suites() as usize;
        let count = self.random.between(2, 8).min(most);
        let mut movers = self.begin_moves(count);
        self.random.shuffle(&mut movers);
        let node = self.any_node();
        for at in movers {
            if self.random.one_in(5) {
                self.read(at, node);
            }
            self.write(at, node);
            self.commit(at);
            if self.waits() && self.random.one_in(8) {
                self.settle();
            }
        }
        let watcher = self.any_suite();
        while self.waits() || self.lags(watcher) {
            if self.waits() && self.random.one_in(2) {
                self.settle();
            } else if self.lags(watcher) {
                self.take(watcher);
                self.look(watcher, node);
            }
        }
        self.deliver();
    }

    /// A move in an idle slot of the suite, if there is one, reads the node.
    fn look(&mut self, suite: u64, node: u64) {
        let slots = (1..=SLOTS as u64).map(|slot| SuiteSlot { suite, slot });
        let idle: Vec<SuiteSlot> = slots.filter(|at| *self.slot(*at) == Slot::Idle).collect();
        if let Some(at) = idle.first() {
            self.begin(*at);
            self.read(*at, node);
            self.commit(*at);
        }
    }

    /// A move reads the nodes whose Bloom summary names another one, or now and
    /// then all of them but one; that other node changes.
    pub fn misnamed(&mut self) {
        let (misnamed, mut reads) = match &self.misnamed {
            Some(misnamed) => (misnamed.node, misnamed.namers.clone()),
            None => return self.queues(),
        };
        let suite = self.any_suite();
        let at = self.begin_at(suite);
        self.random.shuffle(&mut reads);
        if self.random.one_in(5) {
            reads.pop();
        }
        for node in &reads {
            self.read(at, *node);
        }
        let any = self.any_node();
        let written = self.random.pick(&[misnamed, any, any, any]);
        self.write(at, written);
        let other = suite % self.suites() + 1;
        let taker = self.random.pick(&[suite, other]);
        let read = reads.first().copied().unwrap_or(any);
        let changed = match self.random.below(6) {
            0 => vec![any],
            1 => vec![misnamed, read],
            _ => vec![misnamed],
        };
        self.land(&changed, taker);
        self.commit(at);
        self.deliver();
    }
}
