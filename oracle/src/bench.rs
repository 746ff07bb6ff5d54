//! The bench: it runs one session, call by call, on lines of text.
//!
//! Its settings are colours, its summary the exact list, and its line settles
//! messages as they come.

use std::io::{self, BufRead, Write};

use crate::grade::{Call, Grade, Making};
use crate::lines::Kind;
use crate::message::Format;
use crate::refusal::Refusal;
use crate::script::{answer_lines, number, numbers};
use crate::settings::SettingKind;
use crate::summaries::SummaryKind;
use crate::words::{setting, suite_slot};

/// The most bytes that a line has, without its line end.
pub const LONGEST_LINE: usize = 1400;

/// How many messages the line of the session holds.
pub const LINE_PLACES: usize = 32;

/// The line that parts two sessions, where an input has several.
const PARTING: &str = "---";

const FORMAT: Format = Format {
    setting: SettingKind::Colour,
    summary: SummaryKind::Exact,
};

/// What a line asks for.
enum Command {
    Make { suites: u64, nodes: Vec<u64> },
    Call(Call),
}

/// The bench: the session, once an `N` line was accepted.
#[derive(Default)]
pub struct Bench {
    pub grade: Option<Grade>,
}

/// Answers the lines of one session.
pub fn run(input: impl BufRead, output: &mut impl Write) -> io::Result<()> {
    let mut bench = Bench::default();
    answer_lines(LONGEST_LINE, input, output, |line| {
        bench.answer(line) + "\n"
    })
}

/// Answers the lines of several sessions, each ended by a parting line or by
/// the end of the input.
pub fn run_sessions(input: impl BufRead, output: &mut impl Write) -> io::Result<()> {
    let mut bench = Bench::default();
    answer_lines(LONGEST_LINE, input, output, |line| {
        if line == PARTING.as_bytes() {
            bench = Bench::default();
            return format!("{PARTING}\n");
        }
        bench.answer(line) + "\n"
    })
}

impl Bench {
    /// Does what the line asks for; gives the answer, without a line end.
    pub fn answer(&mut self, line: &[u8]) -> String {
        let answer = match (command(line), &mut self.grade) {
            (Some(Command::Make { suites, nodes }), None) => self.make(suites, nodes),
            (Some(Command::Call(call)), Some(grade)) => grade.perform(call),
            _ => return "bad".to_string(),
        };
        answer.unwrap_or_else(Refusal::words)
    }

    fn make(&mut self, suites: u64, nodes: Vec<u64>) -> Result<String, Refusal> {
        let making = Making {
            format: FORMAT,
            line: Kind::FirstCome,
            places: LINE_PLACES,
            suites,
            nodes,
        };
        self.grade = Some(Grade::new(&making)?);
        Ok("ok".to_string())
    }
}

/// What the line asks for, if it can be read.
fn command(line: &[u8]) -> Option<Command> {
    if line.len() > LONGEST_LINE {
        return None;
    }
    let fields: Vec<&[u8]> = line.split(|byte| *byte == b' ').collect();
    let call = match &fields[..] {
        [b"N", suites, nodes @ ..] => {
            return Some(Command::Make {
                suites: number(suites)?,
                nodes: numbers(nodes)?,
            })
        }
        [b"B", suite, slot] => Call::Begin(suite_slot(suite, slot)?),
        [b"R", suite, slot, node] => Call::Read(suite_slot(suite, slot)?, number(node)?),
        [b"W", suite, slot, node, colour @ ..] => Call::Write(
            suite_slot(suite, slot)?,
            number(node)?,
            setting(FORMAT.setting, colour)?,
        ),
        [b"C", suite, slot] => Call::Commit(suite_slot(suite, slot)?),
        [b"A", suite, slot] => Call::Abandon(suite_slot(suite, slot)?),
        [b"K", suite, slot] => Call::Collect(suite_slot(suite, slot)?),
        [b"S"] => Call::Settle,
        [b"T", suite] => Call::Take(number(suite)?),
        _ => return None,
    };
    Some(Command::Call(call))
}

#[cfg(test)]
mod tests {
    use super::*;
    use crate::script::testing::{check_printed, printed};

    fn answers(input: impl AsRef<[u8]>) -> String {
        printed(|input, output| run(input, output), input)
    }

    fn check(lines: &[(&str, &str)]) {
        check_printed(|input| answers(input), lines);
    }

    /// Checks that each of the lines is bad, with a session and without.
    fn check_bad(lines: &[&str]) {
        for line in lines {
            check(&[(line, "bad"), ("N 2 7 9", "ok"), (line, "bad")]);
        }
    }

    #[test]
    fn one_move_goes_through_both_suites() {
        check(&[
            ("N 2 7 9", "ok"),
            ("B 1 1", "ok 0"),
            ("R 1 1 7", "set 0 0 0"),
            ("W 1 1 7 1 -1 0", "ok"),
            ("C 1 1", "sent"),
            ("S", "ok"),
            ("T 2", "done 1"),
            ("K 1 1", "no 13"),
            ("T 1", "done 1"),
            ("K 1 1", "done 1"),
            ("K 1 1", "no 6"),
        ]);
    }

    #[test]
    fn every_answer_has_its_words() {
        check(&[
            ("N 1 5", "ok"),
            ("B 1 1", "ok 0"),
            ("B 1 2", "ok 0"),
            ("R 1 2 5", "set 0 0 0"),
            ("B 1 3", "ok 0"),
            ("R 1 3 5", "set 0 0 0"),
            ("W 1 1 5 -2147483648 2147483647 -0", "ok"),
            ("R 1 1 5", "set -2147483648 2147483647 0"),
            ("W 1 2 5 1 2 3", "ok"),
            ("C 1 1", "sent"),
            ("C 1 2", "sent"),
            ("K 1 2", "no 13"),
            ("S", "ok"),
            ("S", "ok"),
            ("S", "no 11"),
            ("T 1", "done 1"),
            ("T 1", "clash 5"),
            ("T 1", "no 12"),
            ("K 1 1", "done 1"),
            ("K 1 2", "clash 5"),
            ("W 1 3 5 1 2 3", "ok"),
            ("C 1 3", "clash 5"),
            ("B 1 4", "ok 1"),
            ("A 1 4", "ok"),
            ("B 1 4", "ok 1"),
            ("C 1 4", "read 1"),
        ]);
    }

    #[test]
    fn calls_before_a_session_are_bad() {
        for call in [
            "B 1 1",
            "R 1 1 7",
            "W 1 1 7 0 0 0",
            "C 1 1",
            "A 9 9",
            "K 0 0",
            "S",
            "T 1",
        ] {
            check(&[
                (call, "bad"),
                ("N 9 7", "no 1"),
                (call, "bad"),
                ("N 1", "no 2"),
                ("N 1 7 7", "no 3"),
                ("N 1 7 ", "bad"),
                (call, "bad"),
                ("N 1 7", "ok"),
            ]);
        }
    }

    #[test]
    fn a_session_is_made_once() {
        check(&[
            ("N 1 7", "ok"),
            ("N 1 7", "bad"),
            ("N 0", "bad"),
            ("N 1", "bad"),
            ("N 1 8 8", "bad"),
            ("B 1 1", "ok 0"),
            ("R 1 1 8", "no 7"),
            ("R 1 1 7", "set 0 0 0"),
        ]);
    }

    #[test]
    fn sessions_are_refused_in_order() {
        let nodes: String = (0..64).map(|node| format!(" {node}")).collect();
        for (line, answer) in [
            ("N 0", "no 1"),
            ("N 0 7 7", "no 1"),
            ("N 9 7", "no 1"),
            ("N 18446744073709551615 7", "no 1"),
            (&format!("N 9{nodes} 64"), "no 1"),
            ("N 8", "no 2"),
            (&format!("N 8{nodes} 64"), "no 2"),
            (&format!("N 8{nodes} 0"), "no 2"),
            ("N 8 7 8 7", "no 3"),
            ("N 1 0 18446744073709551615 0", "no 3"),
            ("N 1 0 18446744073709551615", "ok"),
            (&format!("N 8{nodes}"), "ok"),
        ] {
            check(&[(line, answer)]);
        }
    }

    #[test]
    fn what_cannot_be_read_is_bad() {
        check_bad(&[
            "",
            " ",
            "# B 1 1",
            "b 1 1",
            "BB 1 1",
            "begin 1 1",
            "---",
            "N",
            "N ",
            "N  7",
            "N 2 ",
            "N 2  7",
            "N 2 7 ",
            "N 2 7 x",
            "N -1 7",
            "N +2 7",
            "N\t2 7",
            "N 2 7\r",
            " N 2 7",
            "N 18446744073709551616 7",
            "N 2 18446744073709551616",
            "B",
            "B 1",
            "B 1 ",
            "B  1",
            "B 1 1 ",
            "B 1 1 1",
            "B 1 -1",
            "B 18446744073709551616 1",
            "C 1",
            "C 1 x",
            "A 1",
            "A 1 1 7",
            "K",
            "K 1 1 1",
            "R 1 1",
            "R 1 1 ",
            "R 1 1 7 9",
            "R 1 1 18446744073709551616",
            "W 1 1 7 0 0",
            "W 1 1 7 0 0 0 0",
            "W 1 1 7 0 0 0 ",
            "W 1 1 7 0  0 0",
            "W 1 1 7 2147483648 0 0",
            "W 1 1 7 0 -2147483649 0",
            "W 1 1 7 0 0 +1",
            "W 1 1 7 0 0 -",
            "W 1 1 7 0 0 --1",
            "W 1 1 7 - 1 0",
            "W 1 1 -7 0 0 0",
            "S ",
            "S 1",
            "S\r",
            "s",
            "T",
            "T ",
            "T 1 ",
            "T 1 1",
            "T 1.0",
            "T \u{661}",
        ]);
    }

    #[test]
    fn bytes_that_are_no_text_are_bad() {
        let input = b"N 1 7\nB 1 1\xff\n\xff\xfe\nB\0 1 1\nB 1 1\n";
        assert_eq!(answers(input), "ok\nbad\nbad\nbad\nok 0\n");
    }

    #[test]
    fn numbers_at_their_limits_are_read() {
        let zeros = "0".repeat(100);
        let most = u64::MAX;
        check(&[
            (&format!("N {zeros}2 {zeros}7 {most}"), "ok"),
            (&format!("B {zeros}1 {zeros}4"), "ok 0"),
            (&format!("B {most} {most}"), "no 5"),
            ("B 4294967297 1", "no 5"),
            ("B 1 257", "no 5"),
            ("R 01 04 07", "set 0 0 0"),
            (&format!("R 1 4 {most}"), "set 0 0 0"),
            (
                &format!("W 1 4 7 {zeros}2147483647 -{zeros}2147483648 -{zeros}"),
                "ok",
            ),
            ("R 1 4 7", "set 2147483647 -2147483648 0"),
            ("R 1 4 4294967303", "no 7"),
            (&format!("T {most}"), "no 5"),
            ("T 0", "no 5"),
            ("T 3", "no 5"),
            ("T 2", "no 12"),
        ]);
    }

    #[test]
    fn long_lines_are_bad() {
        let begin = |length: usize| format!("B 1 {}", "1".repeat(length - 4));
        let zeros = |length: usize| format!("B 1 {}1", "0".repeat(length - 5));
        let script = [
            "N 1 7".to_string(),
            zeros(1401),
            begin(1400),
            "x".repeat(1400) + "B 1 1",
            "x".repeat(1401) + "B 1 1",
            "B 1 1".repeat(10_000),
            zeros(1400),
            zeros(1400),
        ];
        let expected = "ok\nbad\nbad\nbad\nbad\nbad\nok 0\nno 6\n";
        assert_eq!(answers(script.join("\n")), expected);
    }

    #[test]
    fn the_last_line_may_lack_its_end() {
        assert_eq!(answers(""), "");
        assert_eq!(answers("\n"), "bad\n");
        assert_eq!(answers("N 1 7"), "ok\n");
        assert_eq!(answers("N 1 7\n"), "ok\n");
        assert_eq!(answers("N 1 7\n\nS"), "ok\nbad\nno 11\n");
        assert_eq!(answers("x".repeat(1401)), "bad\n");
    }

    #[test]
    fn the_line_has_32_places() {
        let mut input = "N 1 7\n".to_string();
        let mut expected = "ok\n".to_string();
        for stamp in 0..32 {
            input += "B 1 1\nW 1 1 7 0 0 0\nC 1 1\nS\nT 1\nK 1 1\n";
            let done = stamp + 1;
            expected += &format!("ok {stamp}\nok\nsent\nok\ndone {done}\ndone {done}\n");
        }
        input += "B 1 1\nW 1 1 7 1 1 1\nC 1 1\nR 1 1 7\nA 1 1\nB 1 1\nC 1 1\n";
        expected += "ok 32\nok\nno 10\nset 1 1 1\nok\nok 32\nread 32\n";
        assert_eq!(answers(input), expected);
    }

    #[test]
    fn sessions_are_parted() {
        let answers = |input: &str| printed(|input, output| run_sessions(input, output), input);
        assert_eq!(answers(""), "");
        assert_eq!(answers("---"), "---\n");
        assert_eq!(
            answers("S\n---\nS\nN 1 7\nS\n--- \nS\n---\n---\nN 2 7\nT 2\n"),
            "bad\n---\nbad\nok\nno 11\nbad\nno 11\n---\n---\nok\nno 12\n"
        );
        let long = "-".repeat(1401);
        assert_eq!(
            answers(&format!("N 1 7\n{long}\nS\n----\n")),
            "ok\nbad\nno 11\nbad\n"
        );
    }
}
