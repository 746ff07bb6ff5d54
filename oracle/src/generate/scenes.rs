//! Scenes of a session: what moves do together, at their limits, and wrongly.
//!
//! The program that is asked answers each line while the lines are made, so
//! that most of the calls are ones that it accepts, and the session gets into
//! every state.

mod bounds;
mod calls;
mod meetings;
mod model;
mod queues;
mod refused;

use super::random::Random;
use super::slips::Vocabulary;
use super::Lines;
use crate::grade::Grade;
use crate::message::MOST_WRITES;
use crate::summaries::MOST_NUMBERS;

/// The most places of a line that is filled on purpose.
const MOST_FILLED: usize = 100;

/// What a part of a session is about.
#[derive(Clone, Copy)]
pub enum Scene {
    /// Moves of several suites read what others write.
    Crossing,
    /// Moves that have read nothing write the same nodes.
    Blind,
    /// Commits land while moves are open.
    Landing,
    /// A suite sends what the others know to be old.
    Lagging,
    /// The moves of a suite have different snapshots.
    Snapshots,
    /// A move reads as many nodes as it can.
    Reads,
    /// A move writes as many nodes as it can.
    Writes,
    /// Settings of all spellings are written and read.
    Values,
    /// Any calls, most of which the states of the slots allow.
    Wander,
    /// Calls that the states of the slots do not allow.
    States,
    /// Suites, slots and nodes that there are not.
    Strangers,
    /// Lines with slips.
    Slips,
    /// Numbers at and over the limits of their fields.
    Limits,
    /// The line is filled, and moves end in front of it.
    Full,
    /// Every call with each of its fields missing, empty, or not fitting.
    Fields,
    /// Lines about as long as the longest.
    Long,
    /// Messages of several suites wait before any is settled.
    Queues,
    /// A node changes that a Bloom summary names though it was not read.
    Misnamed,
}

/// What the program is asked for.
#[derive(Clone, Copy)]
pub enum Act {
    Begin,
    Read,
    Write,
    Commit,
    Abandon,
    Collect,
    Settle,
    Take,
}

/// A long line: its front, what fills it up, and its end.
pub type Long = (&'static str, u8, &'static str);

/// A program that runs a session on lines.
pub trait Program: Default {
    /// The first field of a line for each act.
    const WORDS: [&'static str; 8];
    const LONGEST_LINE: usize;
    /// The scenes of a session; they are shuffled, and come again after the
    /// last.
    const ROUND: &'static [Scene];
    /// The scenes of a session whose line is full.
    const LATE_ROUND: &'static [Scene];
    const VOCABULARY: Vocabulary;
    /// A line for each act.
    const CALLS: &'static [&'static str];
    const LONG: &'static [Long];

    /// Does what the line asks for; gives the answer, without a line end.
    fn answer(&mut self, line: &[u8]) -> String;

    /// The session, if there is one.
    fn grade(&self) -> Option<&Grade>;

    /// Whether the session would not outlive the line.
    fn is_last(&self, line: &[u8]) -> bool;

    /// Lines with numbers at the limits of their fields; each turn has others.
    fn limits(turn: usize) -> Vec<String>;

    /// A line that cannot make a session once there is one.
    fn bad_making(random: &mut Random) -> String;
}

/// A node that a Bloom summary of the namers names by chance.
pub struct Misnamed {
    pub node: u64,
    pub namers: Vec<u64>,
}

/// The lines so far, and the program that has answered them.
pub struct Stream<P> {
    pub random: Random,
    pub lines: Lines,
    pub program: P,
    /// How many lines were said.
    pub said: u64,
    /// The nodes at which moves meet.
    pub hot: Vec<u64>,
    pub misnamed: Option<Misnamed>,
    /// Counts what goes through lists of slips and limits in turn.
    pub turn: usize,
}

impl<P: Program> Stream<P> {
    pub fn new(seed: u64) -> Stream<P> {
        let mut random = Random::new(seed);
        Stream {
            turn: random.below(1000),
            random,
            lines: Lines::default(),
            program: P::default(),
            said: 0,
            hot: Vec::new(),
            misnamed: None,
        }
    }

    /// Plays scenes of the session until about so many lines were said.
    pub fn play(&mut self, lines: u64) {
        let mut once = self.scenes_once();
        let mut round = Vec::new();
        while self.said < lines {
            if round.is_empty() {
                let full = self.line_is_full();
                round = if full { P::LATE_ROUND } else { P::ROUND }.to_vec();
                self.random.shuffle(&mut round);
            }
            let is_due = !once.is_empty() && self.random.one_in(3);
            let scenes = if is_due { &mut once } else { &mut round };
            let scene = scenes.remove(0);
            self.scene(scene);
        }
    }

    /// The scenes that a session has beside its rounds. After the last of them
    /// its line is full, if it has not very many places.
    fn scenes_once(&mut self) -> Vec<Scene> {
        let nodes = self.nodes().len();
        let mut scenes = vec![Scene::Limits];
        if nodes > MOST_WRITES {
            scenes.push(Scene::Writes);
        }
        if nodes > MOST_NUMBERS {
            scenes.extend([Scene::Reads; 2]);
        }
        if self.random.one_in(12) {
            scenes.push(Scene::Fields);
        }
        if self.random.one_in(6) {
            scenes.push(Scene::Long);
        }
        self.random.shuffle(&mut scenes);
        if self.places() <= MOST_FILLED {
            scenes.push(Scene::Full);
        }
        scenes
    }

    fn scene(&mut self, scene: Scene) {
        match scene {
            Scene::Crossing => self.crossing(),
            Scene::Blind => self.blind(),
            Scene::Landing => self.landing(),
            Scene::Lagging => self.lagging(),
            Scene::Snapshots => self.snapshots(),
            Scene::Reads => self.reads(),
            Scene::Writes => self.writes(),
            Scene::Values => self.values(),
            Scene::Wander => self.wander(),
            Scene::States => self.states(),
            Scene::Strangers => self.strangers(),
            Scene::Slips => self.slips(),
            Scene::Limits => self.limits(),
            Scene::Full => self.full(),
            Scene::Fields => self.fields(),
            Scene::Long => self.long(),
            Scene::Queues => self.queues(),
            Scene::Misnamed => self.misnamed(),
        }
    }
}
