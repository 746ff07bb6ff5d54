//! The making of the session, what comes before it, and the last line.

use super::malformed::{CALLS, MAKING_LIMITS};
use super::Stream;
use crate::bench::{Bench, LONGEST_LINE};
use crate::generate::padded;
use crate::generate::slips::limit_lines;
use crate::session::MOST_NODES;
use crate::summaries::MOST_NUMBERS;

/// Numbers of nodes; some of them are at a limit.
const NODE_COUNTS: [usize; 20] = [
    1, 2, 2, 3, 4, 5, 6, 8, 12, 16, 17, 18, 32, 33, 33, 33, 34, 40, 63, 64,
];

/// Numbers of suites that no session has.
const BAD_SUITES: [u64; 6] = [0, 9, 256, 257, (1 << 32) + 1, u64::MAX];

impl Stream<Bench> {
    /// Lines that make no session, and calls, which are all bad so early.
    pub fn before_session(&mut self) {
        for _ in 0..self.random.between(2, 12) {
            match self.random.below(5) {
                0 => {
                    let call = self.random.pick(&CALLS);
                    self.say(call);
                }
                1 => {
                    let line = self.spoilt();
                    if line.first() != Some(&b'N') {
                        self.say(line);
                    }
                }
                2 => {
                    let limits = limit_lines(&MAKING_LIMITS, self.next_turn());
                    let line = self.random.below(limits.len());
                    self.say(&limits[line]);
                }
                _ => self.say_refused_making(),
            }
        }
    }

    /// A making that is refused, for one reason or for several.
    fn say_refused_making(&mut self) {
        let bad_suites = self.random.pick(&BAD_SUITES);
        let good_suites = self.random.between(1, 8) as u64;
        let suites = self.random.pick(&[bad_suites, good_suites]);
        let count = self.random.between(1, 5);
        let mut nodes = self.random.different_nodes(count);
        if suites == good_suites || self.random.one_in(3) {
            match self.random.below(5) {
                0 => nodes.clear(),
                1 => nodes = (0..=MOST_NODES as u64).collect(),
                2 => nodes = vec![7; MOST_NODES + 1],
                _ => {
                    let repeated = self.random.pick(&nodes);
                    let place = self.random.below(nodes.len() + 1);
                    nodes.insert(place, repeated);
                }
            }
        }
        let line = format!("N {suites}{}", plain(&nodes));
        self.say(line);
    }

    /// Makes the session, now and then by a line of the longest length.
    pub fn make_session(&mut self) {
        let suites = self.random.pick(&[1, 2, 2, 2, 3, 3, 4, 5, 6, 7, 8]);
        let nodes = self.nodes_to_be();
        let end = format!("{suites}{}", plain(&nodes));
        if self.random.one_in(12) {
            self.say(padded("N ", b'0', &end, LONGEST_LINE + 1));
            self.say(padded("N ", b'0', &end, LONGEST_LINE));
        } else {
            self.say(format!("N {end}"));
        }
        self.hot = nodes.clone();
        self.random.shuffle(&mut self.hot);
        let hot = self.random.between(2, 6);
        self.hot.truncate(hot);
        if self.random.one_in(3) {
            self.say(format!("N {end}"));
        }
    }

    /// The nodes of the session. If they are just one more than a move can read,
    /// that one is misnamed.
    fn nodes_to_be(&mut self) -> Vec<u64> {
        let count = self.random.pick(&NODE_COUNTS);
        let mut nodes = if self.random.one_in(3) {
            self.random.different_nodes(count)
        } else {
            let any = self.random.below(30) as u64;
            let first = self.random.pick(&[0, any]);
            (first..first + count as u64).collect()
        };
        if count == MOST_NUMBERS + 1 {
            nodes.pop();
            let misnamed = self.misnamed_by(&nodes);
            nodes.push(misnamed.node);
            self.misnamed = Some(misnamed);
        } else if self.random.one_in(3) {
            // One that in fewer bits would be the same as another.
            let near = nodes[0] ^ 1 << self.random.between(8, 63);
            if !nodes.contains(&near) && count < MOST_NODES {
                nodes.push(near);
            }
        }
        self.random.shuffle(&mut nodes);
        nodes
    }

    pub fn last_line(&mut self) {
        let suite = self.any_suite();
        match self.random.below(5) {
            0 => self.say("S"),
            1 => self.say("T 1\r"),
            2 => self.say("B"),
            3 => self.say(format!("T {suite}")),
            _ => {
                let length = LONGEST_LINE + self.random.below(2);
                self.say(padded("T ", b'0', "1", length))
            }
        };
    }
}

/// The numbers, each after a space.
fn plain(numbers: &[u64]) -> String {
    numbers.iter().map(|number| format!(" {number}")).collect()
}
