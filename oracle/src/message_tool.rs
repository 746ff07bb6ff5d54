//! The message tool: it composes messages, reads them, and shows summaries
//! and hashes.

use std::fmt::Write as _;

use crate::message::{
    compose, read, Declined, Fault, Format, Message, Move, Session, MOST_SUITES, MOST_WRITES,
};
use crate::script::{bytes_of, hex, number, numbers, Tool};
use crate::session::{has_repeats, MOST_NODES};
use crate::settings::{Setting, SettingKind};
use crate::summaries::{murmur2, SummaryKind, MOST_NUMBERS};
use crate::words::{setting, setting_kind, setting_words, summary_kind};

/// A line of the right form, taken apart.
pub enum Command {
    Kind(Format),
    Session {
        suites: u64,
        stamp: u32,
        nodes: Vec<u64>,
    },
    Move {
        suite: u8,
        slot: u8,
        snapshot: u32,
    },
    Read(u64),
    Write(u64, Setting),
    Send,
    Message(Vec<u8>),
    Pack(Vec<u64>),
    Names(Vec<u8>, u64),
    Hash(u32, u64),
}

/// Why a line of the right form cannot be met.
#[derive(Clone, Copy, Debug, PartialEq, Eq)]
enum Error {
    NoSession,
    NoMove,
    SuiteCount,
    NodeCount,
    NodeTwice,
    ReadCount,
    WriteCount,
    Suite,
    Slot,
    NoWrites,
    NumberCount,
    SummaryWidth,
}

impl Error {
    /// The words that tell the error.
    fn words(self) -> &'static str {
        match self {
            Error::NoSession => "no session yet",
            Error::NoMove => "no move yet",
            Error::SuiteCount => "a session has 1 to 8 suites",
            Error::NodeCount => "a session has 1 to 64 nodes",
            Error::NodeTwice => "a node number stands twice",
            Error::ReadCount => "a move reads at most 32 nodes",
            Error::WriteCount => "a move writes at most 16 nodes",
            Error::Suite => "the suite is not 1 to 8",
            Error::Slot => "the slot is not 1 to 4",
            Error::NoWrites => "a message has 1 to 16 writes",
            Error::NumberCount => "a summary is packed from at most 32 numbers",
            Error::SummaryWidth => "this summary has another width",
        }
    }
}

impl From<Declined> for Error {
    fn from(declined: Declined) -> Error {
        match declined {
            Declined::Suite => Error::Suite,
            Declined::Slot => Error::Slot,
            Declined::Reads => Error::ReadCount,
            Declined::Writes => Error::NoWrites,
        }
    }
}

/// What the tool keeps from line to line.
pub struct MessageTool {
    format: Format,
    session: Option<Session>,
    described: Option<Move>,
}

impl Tool for MessageTool {
    type Command = Command;

    const FORMS: &'static [&'static str] = &[
        "kind SETTING SUMMARY",
        "session SUITES STAMP NODE..",
        "move SUITE SLOT SNAPSHOT",
        "read NODE",
        "write NODE SETTING",
        "send",
        "message HEX",
        "pack NODE..",
        "names HEX NODE",
        "hash SEED NUMBER",
    ];

    fn command(&self, fields: &[&[u8]]) -> Option<Command> {
        Some(match fields {
            [b"kind", setting, summary] => Command::Kind(Format {
                setting: setting_kind(setting)?,
                summary: summary_kind(summary)?,
            }),
            [b"session", suites, stamp, nodes @ ..] => Command::Session {
                suites: number(suites)?,
                stamp: number(stamp)?,
                nodes: numbers(nodes)?,
            },
            [b"move", suite, slot, snapshot] => Command::Move {
                suite: number(suite)?,
                slot: number(slot)?,
                snapshot: number(snapshot)?,
            },
            [b"read", node] => Command::Read(number(node)?),
            [b"write", node, words @ ..] => {
                Command::Write(number(node)?, setting(self.format.setting, words)?)
            }
            [b"send"] => Command::Send,
            [b"message", digits] => Command::Message(bytes_of(digits)?),
            [b"pack", nodes @ ..] => Command::Pack(numbers(nodes)?),
            [b"names", digits, node] => Command::Names(bytes_of(digits)?, number(node)?),
            [b"hash", seed, hashed] => Command::Hash(number(seed)?, number(hashed)?),
            _ => return None,
        })
    }

    fn meet(&mut self, command: Command) -> Result<String, &'static str> {
        self.perform(command).map_err(Error::words)
    }
}

impl MessageTool {
    pub fn new() -> MessageTool {
        MessageTool {
            format: Format {
                setting: SettingKind::Colour,
                summary: SummaryKind::Exact,
            },
            session: None,
            described: None,
        }
    }

    /// Does what a command says; gives the answer. An error changes nothing.
    fn perform(&mut self, command: Command) -> Result<String, Error> {
        match command {
            Command::Kind(format) => {
                self.format = format;
                self.described = None;
            }
            Command::Session {
                suites,
                stamp,
                nodes,
            } => self.session = Some(session(suites, stamp, nodes)?),
            Command::Move {
                suite,
                slot,
                snapshot,
            } => {
                self.described = Some(Move {
                    suite,
                    slot,
                    snapshot,
                    reads: Vec::new(),
                    writes: Vec::new(),
                })
            }
            Command::Read(node) => add_read(self.described()?, node)?,
            Command::Write(node, setting) => add_write(self.described()?, node, setting)?,
            Command::Send => return self.send(),
            Command::Message(bytes) => {
                let session = self.session.as_ref().ok_or(Error::NoSession)?;
                return Ok(shown(self.format, session, &bytes));
            }
            Command::Pack(nodes) => {
                let packed = self.format.summary.pack(&nodes);
                return Ok(format!(
                    "summary {}\n",
                    hex(&packed.ok_or(Error::NumberCount)?)
                ));
            }
            Command::Names(summary, node) => {
                return match self.format.summary.names(&summary, node) {
                    None => Err(Error::SummaryWidth),
                    Some(true) => Ok("named\n".to_string()),
                    Some(false) => Ok("not named\n".to_string()),
                }
            }
            Command::Hash(seed, hashed) => {
                return Ok(format!("hash {}\n", murmur2(seed, hashed)));
            }
        }
        Ok("ok\n".to_string())
    }

    /// The move described so far.
    fn described(&mut self) -> Result<&mut Move, Error> {
        self.described.as_mut().ok_or(Error::NoMove)
    }

    /// Composes the described message, shows it, and forgets the description.
    fn send(&mut self) -> Result<String, Error> {
        let session = self.session.as_ref().ok_or(Error::NoSession)?;
        let described = self.described.as_ref().ok_or(Error::NoMove)?;
        let bytes = compose(self.format, described)?;
        let composed = format!("composed {} bytes\nmessage {}\n", bytes.len(), hex(&bytes));
        let answer = composed + &shown(self.format, session, &bytes);
        self.described = None;
        Ok(answer)
    }
}

/// The session of these numbers, if they are within the limits.
fn session(suites: u64, stamp: u32, nodes: Vec<u64>) -> Result<Session, Error> {
    if !(1..=u64::from(MOST_SUITES)).contains(&suites) {
        return Err(Error::SuiteCount);
    }
    if !(1..=MOST_NODES).contains(&nodes.len()) {
        return Err(Error::NodeCount);
    }
    if has_repeats(&nodes) {
        return Err(Error::NodeTwice);
    }
    Ok(Session {
        suites: suites as u8,
        stamp,
        nodes,
    })
}

/// Adds a node to those that the move read, unless it is there.
fn add_read(described: &mut Move, node: u64) -> Result<(), Error> {
    if described.reads.contains(&node) {
        return Ok(());
    }
    if described.reads.len() == MOST_NUMBERS {
        return Err(Error::ReadCount);
    }
    described.reads.push(node);
    Ok(())
}

/// Adds a write, or replaces the setting of the write that the node has.
fn add_write(described: &mut Move, node: u64, setting: Setting) -> Result<(), Error> {
    let writes = &mut described.writes;
    if let Some(write) = writes.iter_mut().find(|write| write.0 == node) {
        write.1 = setting;
        return Ok(());
    }
    if writes.len() == MOST_WRITES {
        return Err(Error::WriteCount);
    }
    writes.push((node, setting));
    Ok(())
}

/// The lines that show a message: its fields, or its fault.
fn shown(format: Format, session: &Session, bytes: &[u8]) -> String {
    match read(format, session, bytes) {
        Ok(message) => fields_shown(format, session, &message, bytes.len() - 2),
        Err(fault) => fault_shown(fault),
    }
}

fn fields_shown(format: Format, session: &Session, message: &Message, length: usize) -> String {
    let mut names = String::new();
    for node in &session.nodes {
        if format.summary.names(&message.summary, *node) == Some(true) {
            let _ = write!(names, " {node}");
        }
    }
    let mut lines = format!("length {length}\nversion 1\n");
    let _ = writeln!(lines, "suite {}\nslot {}", message.suite, message.slot);
    let _ = writeln!(lines, "writes {}", message.writes.len());
    let _ = writeln!(lines, "snapshot {}", message.snapshot);
    let _ = writeln!(lines, "summary {}", hex(&message.summary));
    let _ = writeln!(lines, "names{names}");
    for (node, setting) in &message.writes {
        let _ = writeln!(lines, "write {node} {}", setting_words(*setting));
    }
    lines
}

fn fault_shown(fault: Fault) -> String {
    let words = match fault {
        Fault::Length => "too short, or a wrong length field",
        Fault::Version => "another version",
        Fault::Suite => "no such suite",
        Fault::Slot => "no such slot",
        Fault::WriteCount => "a write count that is not 1 to 16 or does not match the length",
        Fault::Snapshot => "a snapshot above the stamp",
        Fault::Node { .. } => "an unknown or repeated node",
        Fault::Setting { .. } => "no setting of this kind",
    };
    format!(
        "fault {} {} at byte {}: {words}\n",
        fault.layer(),
        fault.cause(),
        fault.byte()
    )
}

#[cfg(test)]
mod tests {
    use super::*;
    use crate::script::testing;

    fn answers(input: impl AsRef<[u8]>) -> String {
        testing::answers(MessageTool::new, input)
    }

    fn check(lines: &[(&str, &str)]) {
        testing::check(MessageTool::new, lines);
    }

    /// Checks that each of the lines gets the error alone, in a tool that has
    /// a session and a move.
    fn check_error(error: &str, lines: &[&str]) {
        for line in lines {
            check(&[
                ("session 1 0 1", "ok"),
                ("move 1 1 0", "ok"),
                (line, &format!("error: {error}")),
            ]);
        }
    }

    /// The example of docs/MESSAGE.md as `send` shows it.
    fn example_shown() -> String {
        let summary = format!("010000000000000007{}", "00".repeat(248));
        let write = "000000000000000700000001ffffffff00000000";
        format!(
            "composed 287 bytes\nmessage 011d0101010100000000{summary}{write}\n\
             length 285\nversion 1\nsuite 1\nslot 1\nwrites 1\nsnapshot 0\n\
             summary {summary}\nnames 7\nwrite 7 1 -1 0\n"
        )
    }

    #[test]
    fn the_example_is_sent_and_read() {
        let shown = example_shown();
        let sent = answers("session 1 0 7\nmove 1 1 0\nread 7\nwrite 7 1 -1 0\nsend\n");
        assert_eq!(sent, format!("ok\nok\nok\nok\n{shown}"));
        let lines: Vec<&str> = shown.lines().collect();
        let read = answers(format!("session 1 0 7\n{}\n", lines[1].to_uppercase()));
        assert_eq!(read, "ok\nerror: unknown command\n");
        let upper = lines[1]["message ".len()..].to_uppercase();
        let read = answers(format!("session 1 0 7\nmessage {upper}\n"));
        assert_eq!(read, format!("ok\n{}\n", lines[2..].join("\n")));
    }

    #[test]
    fn links_are_sent_and_shown() {
        let input = "kind link exact\nsession 8 9 1 2 3\nmove 8 4 9\n\
                     write 2 18446744073709551615\nwrite 1 none\nwrite 3 0\nread 50\nsend\n";
        let summary = format!("010000000000000032{}", "00".repeat(248));
        let expected = format!(
            "length 316\nversion 1\nsuite 8\nslot 4\nwrites 3\nsnapshot 9\n\
             summary {summary}\nnames\nwrite 2 18446744073709551615\nwrite 1 none\nwrite 3 0\n"
        );
        assert!(answers(input).ends_with(&expected));
    }

    #[test]
    fn names_are_in_the_order_of_the_session() {
        let input = "session 1 0 9 4 7 1\nmove 1 1 0\nread 7\nread 1\nread 9\nread 7\n\
                     write 1 0 0 0\nsend\n";
        assert!(answers(input).contains("\nnames 9 7 1\n"));
    }

    #[test]
    fn a_second_write_replaces_at_the_first_place() {
        let input = "session 1 0 1 2\nmove 1 1 0\nwrite 2 0 0 0\nwrite 1 1 1 1\n\
                     write 2 -0 -2147483648 2147483647\nsend\n";
        let expected = "writes 2\nsnapshot 0\nsummary ";
        let shown = answers(input);
        assert!(shown.contains(expected));
        assert!(shown.ends_with("write 2 0 -2147483648 2147483647\nwrite 1 1 1 1\n"));
    }

    #[test]
    fn a_message_with_a_fault_is_shown_after_its_bytes() {
        let input = "kind link bloom\nsession 1 0 1\nmove 1 1 0\nwrite 2 none\nsend\nsend\n";
        let write = "0000000000000002000000000000000000";
        let zeros = "00".repeat(64);
        let expected = format!(
            "ok\nok\nok\nok\ncomposed 91 bytes\nmessage 00590101010100000000{zeros}{write}\n\
             fault writes 6 at byte 74: an unknown or repeated node\n\
             error: no move yet\n"
        );
        assert_eq!(answers(input), expected);
    }

    #[test]
    fn faults_have_their_lines() {
        let zeros = "00".repeat(64);
        let write = "0000000000000001020000000000000000";
        let cases = [
            (
                "".to_string(),
                "frame 1 at byte 0: too short, or a wrong length field",
            ),
            (
                "0008020101010000ffff".to_string(),
                "frame 2 at byte 2: another version",
            ),
            (
                "00080103010100000000".to_string(),
                "frame 3 at byte 3: no such suite",
            ),
            (
                "00080102050100000000".to_string(),
                "frame 3 at byte 4: no such slot",
            ),
            (
                "00080102040100000000".to_string(),
                "frame 4 at byte 5: a write count that is not 1 to 16 or does not match the length",
            ),
            (
                format!("00590102040100000002{zeros}{write}"),
                "frame 5 at byte 6: a snapshot above the stamp",
            ),
            (
                format!("00590102040100000001{zeros}{write}"),
                "kind 7 at byte 82: no setting of this kind",
            ),
        ];
        for (digits, fault) in cases {
            let input = format!("kind link bloom\nsession 2 1 1\nmessage {digits}\n");
            assert_eq!(answers(input), format!("ok\nok\nfault {fault}\n"));
        }
    }

    #[test]
    fn summaries_are_packed_and_asked() {
        let packed = format!("0200000000000000070000000000000009{}", "00".repeat(240));
        check(&[
            ("pack 7 9", &format!("summary {packed}")),
            ("pack", &format!("summary {}", "00".repeat(257))),
            (&format!("names {packed} 7"), "named"),
            (&format!("names {packed} 009"), "named"),
            (&format!("names {packed} 8"), "not named"),
            (
                &format!("names {packed}00 8"),
                "error: this summary has another width",
            ),
            ("names  8", "error: this summary has another width"),
            ("kind colour bloom", "ok"),
            (
                &format!("names {packed} 8"),
                "error: this summary has another width",
            ),
            (&format!("names {} 8", "Ff".repeat(64)), "named"),
            ("pack", &format!("summary {}", "00".repeat(64))),
            (
                &format!("pack{}", " 1".repeat(33)),
                "error: a summary is packed from at most 32 numbers",
            ),
            (
                &format!("pack{} x", " 1".repeat(33)),
                "error: expected pack NODE..",
            ),
        ]);
    }

    #[test]
    fn hashes_are_those_of_the_public_code() {
        let lines = include_str!("../../tests/murmur2/vectors.stdin");
        let expected = include_str!("../../tests/murmur2/vectors.stdout");
        assert_eq!(lines.lines().count(), expected.lines().count());
        assert_eq!(answers(lines), expected);
    }

    #[test]
    fn a_line_is_not_too_long() {
        let comment = |length: usize| format!("#{}", "x".repeat(length - 1));
        let hash = |length: usize| format!("hash {}7 9", "0".repeat(length - 8));
        assert_eq!(hash(4096).len(), 4096);
        let right = answers("hash 7 9\n");
        let long = "error: a line has at most 4096 bytes\n";
        assert_eq!(answers(comment(4096)), "");
        assert_eq!(answers(comment(4097)), long);
        assert_eq!(answers(hash(4096)), right);
        assert_eq!(answers(hash(4097)), long);
        let hidden = format!("{}\n{}hash 7 9\nhash 7 9", comment(9000), comment(4096));
        assert_eq!(answers(hidden), format!("{long}{long}{right}"));
    }

    #[test]
    fn only_empty_lines_and_comments_are_passed_over() {
        assert_eq!(answers(""), "");
        assert_eq!(answers("\n\n"), "");
        assert_eq!(answers(b"#\n# send\n#\xff\n"), "");
        assert_eq!(answers("#"), "");
        let unknown = "error: unknown command\n";
        for line in [
            &b" "[..],
            b" #",
            b"\r",
            b"\t#",
            b"\0",
            b"\xff",
            b" send",
            b"send\r",
        ] {
            assert_eq!(answers(line), unknown);
        }
    }

    #[test]
    fn the_last_line_may_lack_its_end() {
        assert_eq!(answers("kind link exact"), "ok\n");
        assert_eq!(
            answers("kind link exact\n\nkind"),
            "ok\nerror: expected kind SETTING SUMMARY\n"
        );
    }

    #[test]
    fn first_words_are_known_or_not() {
        check_error(
            "unknown command",
            &[
                "Kind",
                "kinds",
                "sen",
                "SEND",
                "hash\t1 2",
                "nothing at all",
                " kind colour exact",
            ],
        );
    }

    #[test]
    fn forms_are_checked() {
        check_error(
            "expected kind SETTING SUMMARY",
            &[
                "kind",
                "kind ",
                "kind colour",
                "kind colour ",
                "kind exact colour",
                "kind link bloom ",
                "kind  link bloom",
                "kind Link bloom",
                "kind link bloom x",
            ],
        );
        check_error(
            "expected session SUITES STAMP NODE..",
            &[
                "session",
                "session 1",
                "session 1 ",
                "session 1 0 ",
                "session 1 0  1",
                "session -1 0 1",
                "session 0 4294967296 1",
                "session 1 0 18446744073709551616",
                "session 1 0 1\r",
                "session 18446744073709551616 0 1",
            ],
        );
        check_error(
            "expected move SUITE SLOT SNAPSHOT",
            &[
                "move",
                "move 1 1",
                "move 1 1 ",
                "move 256 1 1",
                "move 1 256 1",
                "move 1 1 4294967296",
                "move 1 1 1 1",
                "move +1 1 1",
            ],
        );
        check_error(
            "expected read NODE",
            &[
                "read",
                "read ",
                "read 1 2",
                "read -1",
                "read 18446744073709551616",
                "read 0x1",
            ],
        );
        check_error(
            "expected write NODE SETTING",
            &[
                "write",
                "write 1",
                "write 1 1 1",
                "write 1 1 1 1 1",
                "write 1 none",
                "write 1 1 1 --1",
                "write 1 2147483648 0 0",
                "write 1 0 -2147483649 0",
                "write 1 0 0 -",
                "write -0 0 0 0",
            ],
        );
        check_error("expected send", &["send ", "send now", "send  "]);
        check_error(
            "expected message HEX",
            &[
                "message",
                "message 0",
                "message 0g",
                "message 00 ",
                "message  00",
                "message 00 00",
                "message 0x00",
            ],
        );
        check_error(
            "expected pack NODE..",
            &["pack ", "pack 1 ", "pack  1", "pack 1  2", "pack a"],
        );
        check_error(
            "expected names HEX NODE",
            &[
                "names",
                "names ",
                "names 00",
                "names 00 ",
                "names 0 1",
                "names  ",
                "names 00 1 1",
                "names 00  1",
            ],
        );
        check_error(
            "expected hash SEED NUMBER",
            &[
                "hash",
                "hash 1",
                "hash 1 ",
                "hash 4294967296 1",
                "hash 1 18446744073709551616",
                "hash 1 2 3",
                "hash -0 1",
            ],
        );
    }

    #[test]
    fn the_form_of_a_write_depends_on_the_kind() {
        check(&[
            ("kind link exact", "ok"),
            ("write 1 0 0 0", "error: expected write NODE SETTING"),
            ("write 1 none", "error: no move yet"),
            ("move 0 0 0", "ok"),
            ("write 1 none", "ok"),
            ("write 1 none none", "error: expected write NODE SETTING"),
            ("write 1 None", "error: expected write NODE SETTING"),
            ("write 1 -1", "error: expected write NODE SETTING"),
            ("write 1 18446744073709551615", "ok"),
            (
                "write 1 18446744073709551616",
                "error: expected write NODE SETTING",
            ),
        ]);
    }

    #[test]
    fn sessions_are_checked_in_order() {
        let many: String = (0..65).map(|node| format!(" {node}")).collect();
        check(&[
            ("message", "error: expected message HEX"),
            ("message ", "error: no session yet"),
            ("send", "error: no session yet"),
            ("session 0 0", "error: a session has 1 to 8 suites"),
            ("session 9 0 1 1", "error: a session has 1 to 8 suites"),
            (
                "session 18446744073709551615 0 1",
                "error: a session has 1 to 8 suites",
            ),
            ("session 1 0", "error: a session has 1 to 64 nodes"),
            (
                &format!("session 1 0 1{many}"),
                "error: a session has 1 to 64 nodes",
            ),
            ("session 1 0 1 2 01", "error: a node number stands twice"),
            ("send", "error: no session yet"),
            (
                &format!("session 8 4294967295{}", &many[..many.len() - 3]),
                "ok",
            ),
            ("send", "error: no move yet"),
        ]);
    }

    #[test]
    fn a_failing_session_keeps_the_one_before() {
        let answers = answers(
            "session 1 0 5\nsession 1 0 6 6\nkind link bloom\nmove 1 1 0\nwrite 5 5\nsend\n",
        );
        assert!(answers.ends_with("names\nwrite 5 5\n"));
    }

    #[test]
    fn a_description_is_kept_and_forgotten() {
        check(&[
            ("read 1", "error: no move yet"),
            ("write 1 0 0 0", "error: no move yet"),
            ("move 9 5 0", "ok"),
            ("session 1 0 1", "ok"),
            ("send", "error: the suite is not 1 to 8"),
            ("send", "error: the suite is not 1 to 8"),
            ("move 8 5 0", "ok"),
            ("send", "error: the slot is not 1 to 4"),
            ("move 8 4 0", "ok"),
            ("send", "error: a message has 1 to 16 writes"),
            ("write 1 0 0 0", "ok"),
            ("kind colour exact", "ok"),
            ("send", "error: no move yet"),
        ]);
    }

    #[test]
    fn reads_and_writes_are_limited() {
        let mut lines = vec![("move 1 1 0".to_string(), "ok")];
        for node in 0..32 {
            lines.push((format!("read {node}"), "ok"));
        }
        lines.push((
            "read 32".to_string(),
            "error: a move reads at most 32 nodes",
        ));
        lines.push(("read 31".to_string(), "ok"));
        for node in 0..16 {
            lines.push((format!("write {node} 0 0 0"), "ok"));
        }
        lines.push((
            "write 16 0 0 0".to_string(),
            "error: a move writes at most 16 nodes",
        ));
        lines.push(("write 15 1 1 1".to_string(), "ok"));
        let lines: Vec<(&str, &str)> = lines
            .iter()
            .map(|(line, answer)| (&line[..], *answer))
            .collect();
        check(&lines);
    }
}
