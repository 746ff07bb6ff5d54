//! Lines before, between and after the sessions: makings that are refused or
//! are none, and calls that may have no session.

use super::making::{combination, spaced, COMBINATIONS};
use super::malformed::{CALLS, LIMITS, MAKINGS, MAKING_LIMITS};
use super::Stream;
use crate::generate::padded;
use crate::generate::slips::{field_lines, limit_lines};
use crate::lines::MOST_PLACES;
use crate::script::LONGEST_LINE;
use crate::session::MOST_NODES;
use crate::session_tool::{self, SessionTool};

/// For how many causes a making is refused.
const CAUSES: usize = 4;

/// Numbers of suites that no session has.
const BAD_SUITES: [u64; 6] = [0, 9, 256, 257, (1 << 32) + 1, u64::MAX];

/// Numbers of places that no line has, though they may be asked for.
const BAD_PLACES: [usize; 4] = [0, MOST_PLACES + 1, 4500, session_tool::MOST_PLACES];

impl Stream<SessionTool> {
    /// Lines before there was any session.
    pub fn before_all(&mut self) {
        for line in CALLS
            .iter()
            .chain(&["", "# session colour exact turn 1 1 7"])
        {
            self.say(line);
        }
        for line in field_lines(&CALLS) {
            self.say(line);
        }
        for turn in 0..8 {
            for line in limit_lines(&LIMITS, turn) {
                if turn == 0 || line.starts_with("write 1 1 7") {
                    self.say(line);
                }
            }
        }
        for number in 0..COMBINATIONS {
            for cause in 0..CAUSES {
                let mut causes = [false; CAUSES];
                causes[cause] = true;
                self.refused_making(number, causes);
                self.say_call();
            }
        }
    }

    /// Now and then lines that make no session, or another one than the next,
    /// each with a call after it.
    pub fn between_sessions(&mut self) {
        self.lines.say_passed_over(&mut self.random);
        for _ in 0..self.random.pick(&[0, 1, 1, 2, 5]) {
            match self.random.below(6) {
                0 => {
                    let line = self.spoilt();
                    self.say(line);
                }
                1 | 2 => {
                    let limits = limit_lines(&MAKING_LIMITS, self.next_turn());
                    let line = self.random.below(limits.len());
                    self.say(&limits[line]);
                }
                _ => self.any_refused_making(),
            }
            self.say_call();
        }
        if self.random.one_in(40) {
            for line in field_lines(&MAKINGS) {
                self.say(line);
                if self.random.one_in(4) {
                    self.say_call();
                }
            }
        }
    }

    pub fn last_line(&mut self) {
        match self.random.below(5) {
            0 => self.say("settle"),
            1 => self.say("take 1\r"),
            2 => self.say("begin"),
            3 => self.say("take 1"),
            _ => {
                let length = LONGEST_LINE + self.random.below(2);
                self.say(padded("take ", b'0', "1", length))
            }
        };
    }

    /// A call that needs not know the session.
    fn say_call(&mut self) {
        let call = self.random.pick(&CALLS);
        self.say(call);
    }

    /// A making of the combination that is refused for these causes.
    fn refused_making(&mut self, number: usize, causes: [bool; CAUSES]) {
        let mut suites = self.random.between(1, 8) as u64;
        let mut places = self.random.between(1, 40);
        let count = self.random.between(1, 5);
        let mut nodes = self.random.different_nodes(count);
        let [no_suites, no_nodes, repeated_node, no_places] = causes;
        if no_suites {
            suites = self.random.pick(&BAD_SUITES);
        }
        if repeated_node {
            let repeated = self.random.pick(&nodes);
            let place = self.random.below(nodes.len() + 1);
            nodes.insert(place, repeated);
        }
        if no_nodes {
            match self.random.below(2) {
                0 => nodes.clear(),
                _ => nodes.extend((nodes.len()..=MOST_NODES).map(|node| node as u64 + 1000)),
            }
        }
        if no_places {
            places = self.random.pick(&BAD_PLACES);
        }
        let kinds = combination(number);
        self.say(format!(
            "session {kinds} {places} {suites}{}",
            spaced(&nodes)
        ));
    }

    /// The same for any combination and causes.
    fn any_refused_making(&mut self) {
        let number = self.random.below(COMBINATIONS);
        let mut causes = [(); CAUSES].map(|()| self.random.one_in(4));
        causes[self.random.below(CAUSES)] = true;
        self.refused_making(number, causes);
    }
}
