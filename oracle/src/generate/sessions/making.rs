//! The making of a session, and a look at what a new one holds.

use super::Stream;
use crate::generate::padded;
use crate::generate::scenes::Act;
use crate::lines::MOST_PLACES;
use crate::message::MOST_WRITES;
use crate::script::LONGEST_LINE;
use crate::session::{MOST_NODES, SLOTS};
use crate::session_tool::SessionTool;
use crate::summaries::MOST_NUMBERS;

/// The words of the kinds; each combination has one of each.
const SETTINGS: [&str; 2] = ["colour", "link"];
const SUMMARIES: [&str; 2] = ["exact", "bloom"];
const LINES: [&str; 2] = ["first-come", "turn"];

/// How many combinations of kinds there are.
pub const COMBINATIONS: usize = 8;

/// Numbers of nodes; some of them are at a limit.
const NODE_COUNTS: [usize; 22] = [
    1, 2, 2, 3, 3, 4, 5, 6, 8, 8, 12, 12, 16, 17, 18, 32, 33, 33, 34, 40, 63, 64,
];

/// Of how many nodes a Bloom summary names another one.
const NAMER_COUNTS: [usize; 7] = [1, 1, 2, 3, 5, 8, MOST_NUMBERS];

/// About how many lines a session has, if its line has places enough.
const LENGTHS: [usize; 7] = [10, 50, 100, 150, 200, 300, 500];

/// The words of a combination of kinds; their numbers go round.
pub fn combination(number: usize) -> String {
    let setting = SETTINGS[number % 2];
    let summary = SUMMARIES[number / 2 % 2];
    let line = LINES[number / 4 % 2];
    format!("{setting} {summary} {line}")
}

/// The numbers, each after a space.
pub fn spaced(numbers: &[u64]) -> String {
    numbers.iter().map(|number| format!(" {number}")).collect()
}

impl Stream<SessionTool> {
    /// Makes a session of the combination, now and then by a line of the longest
    /// length.
    pub fn make_session(&mut self, number: usize) {
        let front = format!("session {} ", combination(number));
        let places = self.places_to_be();
        let suites = self.random.pick(&[1, 2, 2, 2, 3, 3, 4, 5, 6, 7, 8]);
        let nodes = self.nodes_to_be();
        let end = format!("{places} {suites}{}", spaced(&nodes));
        if self.random.one_in(12) {
            self.say(padded(&front, b'0', &end, LONGEST_LINE + 1));
            self.say(padded(&front, b'0', &end, LONGEST_LINE));
        } else {
            self.say(front + &end);
        }
        self.hot = nodes;
        self.random.shuffle(&mut self.hot);
        let hot = self.random.between(2, 6);
        self.hot.truncate(hot);
    }

    fn places_to_be(&mut self) -> usize {
        let any = self.random.between(1, 40);
        let more = self.random.between(41, 300);
        self.random.pick(&[
            1,
            2,
            3,
            any,
            any,
            any,
            any,
            any,
            any,
            32,
            40,
            more,
            MOST_PLACES,
        ])
    }

    /// The nodes of the session. In most sessions of some nodes one of them is
    /// misnamed by some of the others.
    fn nodes_to_be(&mut self) -> Vec<u64> {
        let count = self.random.pick(&NODE_COUNTS);
        let mut nodes = if self.random.one_in(3) {
            self.random.different_nodes(count)
        } else {
            let any = self.random.below(30) as u64;
            let first = self.random.pick(&[0, any]);
            (first..first + count as u64).collect()
        };
        self.misnamed = None;
        if count > 1 && !self.random.one_in(4) {
            nodes.pop();
            let namers = self.random.pick(&NAMER_COUNTS).min(nodes.len());
            let mut misnamed = self.misnamed_by(&nodes[..namers]);
            while nodes.contains(&misnamed.node) {
                misnamed = self.misnamed_by(&nodes[..namers]);
            }
            nodes.push(misnamed.node);
            self.misnamed = Some(misnamed);
        } else if self.random.one_in(3) && count < MOST_NODES {
            // One that in fewer bits would be the same as another.
            let near = nodes[0] ^ 1 << self.random.between(8, 63);
            if !nodes.contains(&near) {
                nodes.push(near);
            }
        }
        self.random.shuffle(&mut nodes);
        nodes
    }

    /// About how many lines are to be said now: not many if the line is soon
    /// full.
    pub fn length_to_be(&mut self) -> u64 {
        let most = 60 + 10 * self.places();
        self.random.pick(&LENGTHS).min(most) as u64
    }

    /// What a short session would not often come to.
    pub fn opening(&mut self) {
        let nodes = self.nodes().len();
        if !self.random.one_in(3) {
            self.misnamed();
        }
        if nodes > MOST_NUMBERS && self.random.one_in(2) {
            self.reads();
        }
        if nodes > MOST_WRITES && self.random.one_in(2) {
            self.writes();
        }
        if self.random.one_in(6) {
            self.snapshots();
        }
        if self.places() == MOST_PLACES && self.random.one_in(4) {
            self.many();
        }
        if self.random.one_in(2) {
            let more = self.random.pick(&[0, 1, 1]);
            self.say(padded("#", b'x', "", LONGEST_LINE + more));
        }
    }

    /// Calls of a new session that show whether it holds anything of the one
    /// before.
    pub fn look_around(&mut self) {
        if self.random.one_in(2) {
            return;
        }
        self.settle();
        for suite in 1..=self.suites() {
            self.take(suite);
        }
        for _ in 0..3 {
            let at = self.any_slot();
            self.collect(at);
            self.commit(at);
        }
        let suite = self.any_suite();
        let slot = self.random.between(1, SLOTS) as u64;
        self.plain_call(Act::Begin, &[suite, slot]);
        let mut nodes = self.nodes();
        nodes.truncate(8);
        for node in nodes {
            self.plain_call(Act::Read, &[suite, slot, node]);
        }
        self.plain_call(Act::Commit, &[suite, slot]);
    }
}
