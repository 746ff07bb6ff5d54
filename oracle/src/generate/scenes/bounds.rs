//! The scenes in which a move, a setting or the line is at its limit.

use super::calls::Step;
use super::{Act, Program, Stream};
use crate::generate::spellings::{LEVELS, LINKS};
use crate::message::MOST_WRITES;
use crate::session::{SuiteSlot, SLOTS};
use crate::settings::SettingKind;
use crate::summaries::MOST_NUMBERS;

impl<P: Program> Stream<P> {
    /// A move reads all that it can, and tries more; then one node changes.
    pub fn reads(&mut self) {
        let suite = self.any_suite();
        let at = self.begin_at(suite);
        let mut nodes = self.nodes();
        self.random.shuffle(&mut nodes);
        if let Some(misnamed) = &self.misnamed {
            nodes.retain(|node| *node != misnamed.node);
            nodes.push(misnamed.node);
        }
        let count = nodes.len().min(MOST_NUMBERS);
        let own = self.random.pick(&nodes[count / 2..]);
        if self.random.one_in(3) {
            self.write(at, own);
        }
        for node in &nodes[..count] {
            self.read(at, *node);
        }
        let others: Vec<u64> = nodes[count..].iter().copied().take(3).collect();
        for node in others.iter().copied().chain([nodes[0], own]) {
            self.read(at, node);
        }
        let stranger = self.random.other_node(&nodes);
        self.read(at, stranger);
        if let Some(node) = others.last() {
            self.write(at, *node);
            self.read(at, *node);
        }
        let any = self.random.pick(&nodes);
        let last = nodes[nodes.len() - 1];
        let changed = self.random.pick(&[any, nodes[count - 1], last, last]);
        let other = suite % self.suites() + 1;
        let taker = self.random.pick(&[suite, other, other]);
        self.land(&[changed], taker);
        self.commit(at);
        self.deliver();
    }

    /// A move writes all that it can, with more nodes after.
    pub fn writes(&mut self) {
        let suite = self.any_suite();
        let at = self.begin_at(suite);
        let mut nodes = self.nodes();
        self.random.shuffle(&mut nodes);
        let count = nodes.len().min(MOST_WRITES);
        for node in &nodes[..count] {
            self.write(at, *node);
        }
        let first = nodes[0];
        let last = nodes[count - 1];
        if let Some(other) = nodes.get(count) {
            self.write(at, *other);
            self.read(at, *other);
        }
        let stranger = self.random.other_node(&nodes);
        self.write(at, stranger);
        for node in [last, first] {
            self.write(at, node);
            self.read(at, node);
        }
        self.end(at);
        self.deliver();
        let reader = self.any_suite();
        let at = self.begin_at(reader);
        for node in [last, nodes[count / 2], first] {
            self.read(at, node);
        }
        self.end(at);
    }

    /// A move writes settings, in all spellings, and reads each.
    pub fn values(&mut self) {
        let suite = self.any_suite();
        let at = self.begin_at(suite);
        let node = self.any_node();
        for _ in 0..5 {
            let value = self.spelling();
            let front = self.front(Act::Write, &[at.suite, at.slot, node]);
            self.say(format!("{front} {value}"));
            self.read(at, node);
        }
        self.end(at);
        self.deliver();
    }

    /// A setting of the session's kind in some spelling, or nearly one.
    fn spelling(&mut self) -> String {
        if self.setting_kind() == SettingKind::Link {
            return self.random.pick(&LINKS).to_string();
        }
        let mut levels = [(); 3].map(|()| self.random.pick(&LEVELS[..12]));
        if self.random.one_in(2) {
            let place = self.random.below(3);
            levels[place] = self.random.pick(&LEVELS);
        }
        levels.join(" ")
    }

    /// More moves commit than one byte can count.
    pub fn many(&mut self) {
        let suite = self.any_suite();
        let node = self.any_node();
        for _ in 0..260 {
            self.land(&[node], suite);
        }
        self.deliver();
        self.crossing();
        self.landing();
    }

    /// Moves are open when the line gets full: one has only read, one will
    /// clash, and others would be sent.
    pub fn full(&mut self) {
        let suite = self.any_suite();
        let node = self.any_node();
        let readers: Vec<SuiteSlot> = (1..=2).map(|slot| SuiteSlot { suite, slot }).collect();
        for at in &readers {
            self.make_idle(*at);
            self.begin(*at);
            self.read(*at, node);
        }
        while !self.line_is_full() {
            let other = self.random.between(3, SLOTS) as u64;
            let mut at = self.any_slot();
            if at.suite == suite {
                at.slot = other;
            }
            self.make_idle(at);
            if self.line_is_full() {
                break;
            }
            self.begin(at);
            for _ in 0..self.random.below(3) {
                let read = self.any_node();
                self.read(at, read);
            }
            let other = self.any_node();
            let written = self.random.pick(&[node, other]);
            self.write(at, written);
            self.commit(at);
            if self.random.one_in(3) {
                self.take(suite);
            }
        }
        let sender = self.begin_at(suite);
        let steps = [Step::Read(self.any_node()), Step::Write(self.any_node())];
        self.interleave(vec![(sender, steps.to_vec())]);
        self.commit(sender);
        self.write(readers[1], node);
        for _ in 0..2 {
            self.settle();
            self.take(suite);
        }
        for at in [sender, readers[0], readers[1]] {
            self.commit(at);
        }
        self.step(sender, steps[0]);
        self.commit(sender);
        self.end(sender);
        self.deliver();
    }
}
