//! A grade that is worked on: a session, the memory of its calls, and what
//! these answer in words.

use crate::lines::{Kind, Line, PLACE};
use crate::message::{Format, MOST_SUITES, MOST_WRITES};
use crate::refusal::Refusal;
use crate::session::{
    Commit, Memory, Outcome, Ruling, Session, SuiteSlot, Version, MOST_NODES, SLOTS, VERSIONS,
};
use crate::settings::Setting;
use crate::words::setting_words;

/// What a grade is made of.
pub struct Making {
    pub format: Format,
    pub line: Kind,
    pub places: usize,
    pub suites: u64,
    pub nodes: Vec<u64>,
}

/// A call of the session.
pub enum Call {
    Begin(SuiteSlot),
    Read(SuiteSlot, u64),
    Write(SuiteSlot, u64, Setting),
    Commit(SuiteSlot),
    Abandon(SuiteSlot),
    Collect(SuiteSlot),
    Settle,
    Take(u64),
}

/// A session and the memory that it works in.
pub struct Grade {
    pub session: Session,
    pub memory: Memory,
}

impl Grade {
    /// Makes a session over an empty line, in memory of just the size that it
    /// needs.
    pub fn new(making: &Making) -> Result<Grade, Refusal> {
        let suites = making.suites.min(u64::from(MOST_SUITES)) as usize;
        let nodes = making.nodes.len().min(MOST_NODES);
        let setting = making.format.setting.start();
        let mut memory = Memory {
            versions: vec![Version { stamp: 0, setting }; suites * nodes * VERSIONS],
            writes: vec![(0, setting); suites * SLOTS * MOST_WRITES],
            line: Line::new(making.line, making.places * PLACE),
        };
        let session = Session::new(making.format, making.suites, &making.nodes, &mut memory)?;
        Ok(Grade { session, memory })
    }

    /// Makes the call; tells what it answers.
    pub fn perform(&mut self, call: Call) -> Result<String, Refusal> {
        let Grade { session, memory } = self;
        Ok(match call {
            Call::Begin(at) => format!("ok {}", session.begin(memory, at)?),
            Call::Read(at, node) => {
                let setting = session.read(memory, at, node)?;
                format!("set {}", setting_words(setting))
            }
            Call::Write(at, node, setting) => {
                session.write(memory, at, node, setting)?;
                "ok".to_string()
            }
            Call::Commit(at) => match session.commit(memory, at)? {
                Commit::Read { snapshot } => format!("read {snapshot}"),
                Commit::Clash { node } => format!("clash {node}"),
                Commit::Sent => "sent".to_string(),
            },
            Call::Abandon(at) => {
                session.abandon(memory, at)?;
                "ok".to_string()
            }
            Call::Collect(at) => words(session.collect(memory, at)?),
            Call::Settle => {
                session.settle(memory)?;
                "ok".to_string()
            }
            Call::Take(suite) => match session.take(memory, suite)? {
                Ruling::Outcome(outcome) => words(outcome),
                Ruling::Void(_) => "void".to_string(),
            },
        })
    }
}

fn words(outcome: Outcome) -> String {
    match outcome {
        Outcome::Clash { node } => format!("clash {node}"),
        Outcome::Done { stamp } => format!("done {stamp}"),
    }
}
