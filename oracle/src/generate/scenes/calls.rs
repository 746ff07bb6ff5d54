//! Calls, and what a few of them do together.

use super::{Act, Program, Stream};
use crate::session::{Slot, SuiteSlot, SLOTS};
use crate::settings::{Setting, SettingKind};

/// What an open move does.
#[derive(Clone, Copy)]
pub enum Step {
    Read(u64),
    Write(u64),
}

impl<P: Program> Stream<P> {
    /// Says a line; gives the program's answer.
    pub fn say(&mut self, line: impl AsRef<[u8]>) -> String {
        self.said += 1;
        self.lines.say(line.as_ref());
        self.program.answer(line.as_ref())
    }

    /// Asks for the act with these numbers, now and then after another line that
    /// is most often refused.
    fn call(&mut self, act: Act, numbers: &[u64]) -> String {
        if self.random.one_in(25) {
            self.refused_call();
        }
        self.plain_call(act, numbers)
    }

    pub fn plain_call(&mut self, act: Act, numbers: &[u64]) -> String {
        let line = self.front(act, numbers);
        self.say(line)
    }

    /// The word of the act, and the numbers after it.
    pub fn front(&mut self, act: Act, numbers: &[u64]) -> String {
        let digits = |number: &u64| format!(" {}", self.random.digits(*number));
        let spaced: String = numbers.iter().map(digits).collect();
        P::WORDS[act as usize].to_string() + &spaced
    }

    pub fn begin(&mut self, at: SuiteSlot) {
        self.call(Act::Begin, &[at.suite, at.slot]);
    }

    pub fn read(&mut self, at: SuiteSlot, node: u64) {
        self.call(Act::Read, &[at.suite, at.slot, node]);
    }

    /// Writes any setting.
    pub fn write(&mut self, at: SuiteSlot, node: u64) {
        let front = self.front(Act::Write, &[at.suite, at.slot, node]);
        let setting = self.any_setting();
        let words = self.random.setting_words(setting);
        self.say(format!("{front} {words}"));
    }

    fn any_setting(&mut self) -> Setting {
        let kind = self.setting_kind();
        if self.random.one_in(6) {
            return self.random.setting(kind);
        }
        let mut level = || self.random.below(1999) as i32 - 999;
        match kind {
            SettingKind::Colour => Setting::Colour([level(), level(), level()]),
            SettingKind::Link => Setting::Link(Some(self.random.below(1999) as u64)),
        }
    }

    pub fn step(&mut self, at: SuiteSlot, step: Step) {
        match step {
            Step::Read(node) => self.read(at, node),
            Step::Write(node) => self.write(at, node),
        }
    }

    /// Commits; says whether the move was sent.
    pub fn commit(&mut self, at: SuiteSlot) -> bool {
        self.call(Act::Commit, &[at.suite, at.slot]) == "sent"
    }

    pub fn abandon(&mut self, at: SuiteSlot) {
        self.call(Act::Abandon, &[at.suite, at.slot]);
    }

    pub fn collect(&mut self, at: SuiteSlot) {
        self.call(Act::Collect, &[at.suite, at.slot]);
    }

    pub fn settle(&mut self) {
        self.call(Act::Settle, &[]);
    }

    pub fn take(&mut self, suite: u64) {
        self.call(Act::Take, &[suite]);
    }

    /// An idle slot of the suite. If there is none, one is made so.
    pub fn free_slot(&mut self, suite: u64) -> SuiteSlot {
        let mut slots: Vec<u64> = (1..=SLOTS as u64).collect();
        self.random.shuffle(&mut slots);
        let slots = slots.into_iter().map(|slot| SuiteSlot { suite, slot });
        let rank = |at: &SuiteSlot| match self.slot(*at) {
            Slot::Idle => 0,
            Slot::Ruled(_) => 1,
            Slot::Sent => 2,
            Slot::Open(_) => 3,
        };
        let at = slots.min_by_key(rank).expect("a suite has slots");
        self.make_idle(at);
        at
    }

    /// Ends what goes on in the slot.
    pub fn make_idle(&mut self, at: SuiteSlot) {
        while *self.slot(at) == Slot::Sent {
            if self.lags(at.suite) {
                self.take(at.suite);
            } else {
                self.settle();
            }
        }
        if self.is_open(at) && self.random.one_in(2) {
            self.commit(at);
        }
        match self.slot(at) {
            Slot::Ruled(_) => self.collect(at),
            Slot::Open(_) => self.abandon(at),
            Slot::Sent => self.make_idle(at),
            Slot::Idle => {}
        }
    }

    /// Ends the move in some way, or leaves it open.
    pub fn end(&mut self, at: SuiteSlot) {
        match self.random.below(8) {
            0 => self.abandon(at),
            1 => {}
            _ => {
                self.commit(at);
            }
        }
    }

    /// Begins a move in an idle slot of the suite.
    pub fn begin_at(&mut self, suite: u64) -> SuiteSlot {
        let at = self.free_slot(suite);
        self.begin(at);
        at
    }

    /// Settles and takes in any order, until all is taken or, now and then,
    /// before; collects some rulings.
    pub fn deliver(&mut self) {
        loop {
            let lagging: Vec<u64> = (1..=self.suites()).filter(|s| self.lags(*s)).collect();
            match self.random.below(8) {
                0..=2 if self.waits() => self.settle(),
                3..=6 if !lagging.is_empty() => {
                    let suite = self.random.pick(&lagging);
                    self.take(suite);
                }
                7 => self.collect_any(),
                _ if !self.waits() && lagging.is_empty() => break,
                _ if self.random.one_in(30) => break,
                _ => {}
            }
        }
        self.collect_any();
    }

    /// Collects a ruling, if there is any, or now and then where there is none.
    fn collect_any(&mut self) {
        let too_early = self.random.one_in(4);
        let mut slots = Vec::new();
        for suite in 1..=self.suites() {
            for slot in 1..=SLOTS as u64 {
                let at = SuiteSlot { suite, slot };
                match self.slot(at) {
                    Slot::Ruled(_) => slots.push(at),
                    Slot::Sent if too_early => slots.push(at),
                    _ => {}
                }
            }
        }
        if !slots.is_empty() {
            let at = self.random.pick(&slots);
            self.collect(at);
        }
    }

    /// A move writes the nodes, most often unread and at another suite, and the
    /// suite takes it.
    pub fn land(&mut self, nodes: &[u64], taker: u64) {
        let other = taker % self.suites() + 1;
        let any = self.any_suite();
        let maker = self.random.pick(&[other, other, any]);
        let at = self.begin_at(maker);
        if self.random.one_in(6) {
            let node = self.any_node();
            self.read(at, node);
        }
        for node in nodes {
            self.write(at, *node);
        }
        if !self.commit(at) {
            if self.is_open(at) {
                self.abandon(at);
            }
            return;
        }
        while self.waits() {
            self.settle();
        }
        while self.lags(taker) {
            self.take(taker);
        }
    }

    /// Does the steps of several moves, those of each in their order.
    pub fn interleave(&mut self, mut plans: Vec<(SuiteSlot, Vec<Step>)>) {
        plans.retain(|(_, steps)| !steps.is_empty());
        while !plans.is_empty() {
            let next = self.random.below(plans.len());
            let (at, steps) = &mut plans[next];
            let (at, step) = (*at, steps.remove(0));
            if steps.is_empty() {
                plans.remove(next);
            }
            self.step(at, step);
        }
    }
}
