//! The session tool: it runs sessions of all kinds, call by call, one after the
//! other.

#[cfg(test)]
mod tests;

use crate::grade::{Call, Grade, Making};
use crate::lines::Kind;
use crate::message::Format;
use crate::refusal::Refusal;
use crate::script::{number, numbers, Tool};
use crate::settings::{Setting, SettingKind};
use crate::words::{setting, setting_kind, suite_slot, summary_kind};

/// The most places of a line that a session is asked for.
pub const MOST_PLACES: usize = 5000;

const SETTINGS: [SettingKind; 2] = [SettingKind::Colour, SettingKind::Link];

/// A script line of the right form, taken apart.
pub enum Command {
    Make(Making),
    Call(Call),
}

/// What the tool keeps from script line to script line: the session that was
/// made last, unless it was refused.
#[derive(Default)]
pub struct SessionTool {
    pub grade: Option<Grade>,
}

impl Tool for SessionTool {
    type Command = Command;

    const FORMS: &'static [&'static str] = &[
        "session SETTING SUMMARY LINE PLACES SUITES NODES",
        "begin SUITE SLOT",
        "read SUITE SLOT NODE",
        "write SUITE SLOT NODE VALUE",
        "commit SUITE SLOT",
        "abandon SUITE SLOT",
        "collect SUITE SLOT",
        "settle",
        "take SUITE",
    ];

    fn command(&self, fields: &[&[u8]]) -> Option<Command> {
        let call = match fields {
            [b"session", setting, summary, line, places, suites, nodes @ ..] => {
                return Some(Command::Make(Making {
                    format: Format {
                        setting: setting_kind(setting)?,
                        summary: summary_kind(summary)?,
                    },
                    line: line_kind(line)?,
                    places: number(places).filter(|places| *places <= MOST_PLACES)?,
                    suites: number(suites)?,
                    nodes: numbers(nodes)?,
                }))
            }
            [b"begin", suite, slot] => Call::Begin(suite_slot(suite, slot)?),
            [b"read", suite, slot, node] => Call::Read(suite_slot(suite, slot)?, number(node)?),
            [b"write", suite, slot, node, value @ ..] => Call::Write(
                suite_slot(suite, slot)?,
                number(node)?,
                self.setting(value)?,
            ),
            [b"commit", suite, slot] => Call::Commit(suite_slot(suite, slot)?),
            [b"abandon", suite, slot] => Call::Abandon(suite_slot(suite, slot)?),
            [b"collect", suite, slot] => Call::Collect(suite_slot(suite, slot)?),
            [b"settle"] => Call::Settle,
            [b"take", suite] => Call::Take(number(suite)?),
            _ => return None,
        };
        Some(Command::Call(call))
    }

    fn meet(&mut self, command: Command) -> Result<String, &'static str> {
        let answer = match command {
            Command::Make(making) => self.make(&making),
            Command::Call(call) => self.grade.as_mut().ok_or("no session")?.perform(call),
        };
        Ok(answer.unwrap_or_else(Refusal::words) + "\n")
    }
}

impl SessionTool {
    /// Whether the line asks for a session, be it made or refused.
    pub fn makes(&self, line: &[u8]) -> bool {
        let fields: Vec<&[u8]> = line.split(|byte| *byte == b' ').collect();
        matches!(self.command(&fields), Some(Command::Make(_)))
    }

    /// Makes a session in the place of the one before, which is gone even if
    /// the new one is refused.
    fn make(&mut self, making: &Making) -> Result<String, Refusal> {
        self.grade = None;
        self.grade = Some(Grade::new(making)?);
        Ok("ok".to_string())
    }

    /// The setting that these fields are: one of the session's kind, or one of
    /// any kind while there is no session.
    fn setting(&self, fields: &[&[u8]]) -> Option<Setting> {
        match &self.grade {
            Some(grade) => setting(grade.session.format.setting, fields),
            None => SETTINGS.iter().find_map(|kind| setting(*kind, fields)),
        }
    }
}

fn line_kind(field: &[u8]) -> Option<Kind> {
    match field {
        b"first-come" => Some(Kind::FirstCome),
        b"turn" => Some(Kind::Turn),
        _ => None,
    }
}
