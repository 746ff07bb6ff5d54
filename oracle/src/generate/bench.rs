//! Lines for the bench: one session each.

mod counts;
mod making;
mod malformed;
#[cfg(test)]
mod tests;

use std::io::{self, Write};

use super::random::Random;
use super::scenes::{Long, Program, Scene, Stream};
use super::slips::{limit_lines, Vocabulary};
use crate::bench::{Bench, LONGEST_LINE};
use crate::grade::Grade;
pub use counts::count;

/// Prints about so many lines, which the seed decides.
pub fn generate(seed: u64, lines: u64, output: &mut impl Write) -> io::Result<()> {
    let mut stream = Stream::<Bench>::new(seed);
    stream.before_session();
    stream.make_session();
    stream.play(lines);
    stream.last_line();
    stream.lines.print_last(output)
}

impl Program for Bench {
    const WORDS: [&'static str; 8] = ["B", "R", "W", "C", "A", "K", "S", "T"];
    const LONGEST_LINE: usize = LONGEST_LINE;
    const ROUND: &'static [Scene] = {
        use Scene::*;
        &[
            Crossing, Crossing, Blind, Landing, Landing, Landing, Landing, Lagging, Lagging,
            Snapshots, Snapshots, Reads, Writes, Values, Wander, Wander, States, Strangers, Slips,
        ]
    };
    const LATE_ROUND: &'static [Scene] = {
        use Scene::*;
        &[
            Landing, Reads, Writes, Values, Wander, States, Strangers, Slips, Limits,
        ]
    };
    const VOCABULARY: Vocabulary = malformed::VOCABULARY;
    const CALLS: &'static [&'static str] = &malformed::CALLS;
    const LONG: &'static [Long] = &malformed::LONG;

    fn answer(&mut self, line: &[u8]) -> String {
        Bench::answer(self, line)
    }

    fn grade(&self) -> Option<&Grade> {
        self.grade.as_ref()
    }

    /// A session is as long as the input.
    fn is_last(&self, _: &[u8]) -> bool {
        false
    }

    fn limits(turn: usize) -> Vec<String> {
        limit_lines(&malformed::LIMITS, turn)
    }

    fn bad_making(random: &mut Random) -> String {
        let node = random.node();
        let suites = random.below(10);
        format!("N {suites} {node}")
    }
}
