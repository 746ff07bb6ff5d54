//! Lines that ask for nothing, and calls that are refused.

use super::{Act, Program, Stream};
use crate::generate::padded;
use crate::generate::slips::{field_lines, spoilt_line};
use crate::session::{Slot, SuiteSlot};
use crate::settings::SettingKind;

/// Numbers that are no suite, though in fewer bits some would be.
const STRANGE_SUITES: [u64; 6] = [1, 9, 257, 1 << 32, (1 << 32) + 1, u64::MAX];

/// Numbers that are no slot, though in fewer bits some would be.
const STRANGE_SLOTS: [u64; 7] = [0, 5, 9, 257, 1 << 32, (1 << 32) + 1, u64::MAX];

impl<P: Program> Stream<P> {
    /// Counts one turn on.
    pub fn next_turn(&mut self) -> usize {
        self.turn += 1;
        self.turn
    }

    pub fn spoilt(&mut self) -> Vec<u8> {
        let turn = self.next_turn();
        spoilt_line(&mut self.random, &P::VOCABULARY, turn)
    }

    /// Says a line with a slip that leaves the session there.
    fn say_spoilt(&mut self) {
        let line = self.spoilt();
        if !self.program.is_last(&line) {
            self.say(line);
        }
    }

    /// A call that is refused, or a line with a slip.
    pub fn refused_call(&mut self) {
        match self.random.below(4) {
            0 => self.say_spoilt(),
            1 => self.strange_call(),
            _ => self.state_call(),
        }
    }

    pub fn slips(&mut self) {
        for _ in 0..9 {
            self.say_spoilt();
        }
        let line = P::bad_making(&mut self.random);
        self.say(line);
    }

    pub fn limits(&mut self) {
        let turn = self.next_turn();
        for line in P::limits(turn) {
            self.say(line);
        }
    }

    pub fn fields(&mut self) {
        for line in field_lines(P::CALLS) {
            self.say(line);
        }
        for line in P::CALLS {
            self.say(line.to_lowercase());
        }
    }

    /// Lines of one byte less than the longest, of the longest, and longer.
    pub fn long(&mut self) {
        let (front, filler, end) = self.random.pick(P::LONG);
        for length in [P::LONGEST_LINE - 1, P::LONGEST_LINE, P::LONGEST_LINE + 1] {
            self.say(padded(front, filler, end, length));
        }
        if self.random.one_in(6) {
            let begin = format!("{} 1 1", P::WORDS[Act::Begin as usize]);
            let settle = P::WORDS[Act::Settle as usize];
            let end = format!("\r{begin}");
            self.say(padded(&(begin + " "), b'x', &end, 5 * P::LONGEST_LINE));
            self.say(padded(settle, 0, settle, 70_000));
        }
    }

    pub fn strangers(&mut self) {
        for _ in 0..10 {
            self.strange_call();
        }
    }

    /// A call of a suite, a slot or a node that there is not.
    fn strange_call(&mut self) {
        let at = self.any_slot();
        let nodes = self.nodes();
        let stranger = self.random.other_node(&nodes);
        let node = self.any_node();
        let suite = self.random.pick(&STRANGE_SUITES).max(self.suites() + 1);
        let suite = if self.random.one_in(6) { 0 } else { suite };
        let slot = self.random.pick(&STRANGE_SLOTS);
        let strange = match self.random.below(4) {
            0 => SuiteSlot { suite, ..at },
            1 => SuiteSlot { slot, ..at },
            _ => SuiteSlot { suite, slot },
        };
        match self.random.below(10) {
            0 => self.plain_call(Act::Take, &[suite]),
            1 | 2 => {
                let act = self
                    .random
                    .pick(&[Act::Begin, Act::Commit, Act::Abandon, Act::Collect]);
                self.plain_call(act, &[strange.suite, strange.slot])
            }
            3 | 4 => self.node_call(at, stranger),
            5 => self.node_call(strange, stranger),
            _ => self.node_call(strange, node),
        };
    }

    /// A read or a write.
    fn node_call(&mut self, at: SuiteSlot, node: u64) -> String {
        let numbers = [at.suite, at.slot, node];
        if self.random.one_in(2) {
            return self.plain_call(Act::Read, &numbers);
        }
        let front = self.front(Act::Write, &numbers);
        let value = match self.setting_kind() {
            SettingKind::Colour => "1 2 3",
            SettingKind::Link => "none",
        };
        self.say(format!("{front} {value}"))
    }

    pub fn states(&mut self) {
        for _ in 0..12 {
            self.state_call();
        }
    }

    /// A call that the state of its slot does not allow.
    fn state_call(&mut self) {
        use Act::*;
        let at = self.any_slot();
        let node = self.any_node();
        let acts: &[Act] = match self.slot(at) {
            Slot::Idle => &[Read, Write, Commit, Abandon, Collect],
            Slot::Open(_) => &[Begin, Collect],
            Slot::Sent => &[Begin, Read, Write, Commit, Abandon, Collect],
            Slot::Ruled(_) => &[Begin, Read, Write, Commit, Abandon],
        };
        match self.random.pick(acts) {
            Read | Write => self.node_call(at, node),
            act => self.plain_call(act, &[at.suite, at.slot]),
        };
    }
}
