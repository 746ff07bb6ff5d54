//! Script lines for the session tool: many sessions of all kinds.

mod counts;
mod making;
mod malformed;
mod outside;
#[cfg(test)]
mod tests;

use std::io::{self, Write};

use super::random::Random;
use super::scenes::{Long, Program, Scene, Stream};
use super::slips::{limit_lines, Vocabulary};
use crate::grade::Grade;
use crate::script::{self, LONGEST_LINE};
use crate::session_tool::SessionTool;
pub use counts::count;
use making::COMBINATIONS;

/// Prints the sessions of a seed: each case has one, and what comes before it.
/// The combinations of kinds come in rounds, each in an order of its own.
pub fn generate(seed: u64, cases: u64, output: &mut impl Write) -> io::Result<()> {
    let mut stream = Stream::<SessionTool>::new(seed);
    stream.before_all();
    let mut round = Vec::new();
    for _ in 0..cases {
        if round.is_empty() {
            round.extend(0..COMBINATIONS);
            stream.random.shuffle(&mut round);
        }
        stream.between_sessions();
        stream.make_session(round.remove(0));
        stream.look_around();
        stream.opening();
        let length = stream.length_to_be();
        stream.play(stream.said + length);
        stream.lines.print(output)?;
    }
    stream.last_line();
    stream.lines.print_last(output)
}

impl Program for SessionTool {
    const WORDS: [&'static str; 8] = [
        "begin", "read", "write", "commit", "abandon", "collect", "settle", "take",
    ];
    const LONGEST_LINE: usize = LONGEST_LINE;
    const ROUND: &'static [Scene] = {
        use Scene::*;
        &[
            Crossing, Crossing, Blind, Landing, Landing, Landing, Lagging, Lagging, Snapshots,
            Snapshots, Queues, Queues, Queues, Misnamed, Misnamed, Reads, Writes, Values, Wander,
            Wander, States, Strangers, Slips,
        ]
    };
    const LATE_ROUND: &'static [Scene] = {
        use Scene::*;
        &[
            Landing, Reads, Writes, Values, Wander, States, Strangers, Slips, Limits,
        ]
    };
    const VOCABULARY: Vocabulary = malformed::VOCABULARY;
    const CALLS: &'static [&'static str] = &malformed::CALLS;
    const LONG: &'static [Long] = &malformed::LONG;

    fn answer(&mut self, line: &[u8]) -> String {
        script::answer(self, line).trim_end().to_string()
    }

    fn grade(&self) -> Option<&Grade> {
        self.grade.as_ref()
    }

    fn is_last(&self, line: &[u8]) -> bool {
        self.makes(line)
    }

    /// A third of them, so that a short session has more than these.
    fn limits(turn: usize) -> Vec<String> {
        let mut limits = malformed::LIMITS.chunks(malformed::LIMITS.len() / 3);
        let third = limits.nth(turn % 3);
        limit_lines(third.expect("there are three"), turn / 3)
    }

    fn bad_making(random: &mut Random) -> String {
        malformed::bad_making(random)
    }
}
