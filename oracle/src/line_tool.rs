//! The line tool: it makes lines, makes calls of them, and shows what they
//! answer.

use crate::lines::{Kind, Line, LONGEST_MESSAGE};
use crate::refusal::Refusal;
use crate::script::{bytes_of, hex, number, Tool};

/// The most bytes that a line is made over.
const MOST_BYTES: usize = 5_000_000;

/// The most bytes of a buffer.
const MOST_ROOM: usize = 2048;

/// What each byte of a buffer holds before a fetch.
const BEFORE: u8 = 0xee;

/// A script line of the right form, taken apart.
pub enum Command {
    Make { kind: Kind, bytes: usize },
    Call(Call),
}

/// What is done with the line that was made last.
pub enum Call {
    Offer { suite: u64, message: Vec<u8> },
    Settle,
    Count,
    Fetch { number: u64, room: usize },
    Agreed,
}

/// What the tool keeps from script line to script line.
pub struct LineTool {
    line: Option<Line>,
}

impl LineTool {
    pub fn new() -> LineTool {
        LineTool { line: None }
    }
}

impl Tool for LineTool {
    type Command = Command;

    const FORMS: &'static [&'static str] = &[
        "first-come BYTES FILL",
        "turn BYTES FILL",
        "offer SUITE HEX",
        "settle",
        "count",
        "fetch NUMBER ROOM",
        "agreed",
    ];

    fn command(&self, fields: &[&[u8]]) -> Option<Command> {
        let call = match fields {
            [b"first-come", bytes, fill] => return make(Kind::FirstCome, bytes, fill),
            [b"turn", bytes, fill] => return make(Kind::Turn, bytes, fill),
            [b"offer", suite, digits] => Call::Offer {
                suite: number(suite)?,
                message: bytes_of(digits)?,
            },
            [b"settle"] => Call::Settle,
            [b"count"] => Call::Count,
            [b"fetch", wanted, room] => Call::Fetch {
                number: number(wanted)?,
                room: number_up_to(MOST_ROOM, room)?,
            },
            [b"agreed"] => Call::Agreed,
            _ => return None,
        };
        Some(Command::Call(call))
    }

    fn meet(&mut self, command: Command) -> Result<String, &'static str> {
        let answer = match command {
            Command::Make { kind, bytes } => {
                self.line = Some(Line::new(kind, bytes));
                "ok".to_string()
            }
            Command::Call(call) => {
                let line = self.line.as_mut().ok_or("no line yet")?;
                answer(line, call)
            }
        };
        Ok(answer + "\n")
    }
}

/// The command that makes a line. What its bytes hold has no meaning for it.
fn make(kind: Kind, bytes: &[u8], fill: &[u8]) -> Option<Command> {
    number::<u8>(fill)?;
    Some(Command::Make {
        kind,
        bytes: number_up_to(MOST_BYTES, bytes)?,
    })
}

/// A number that is at most so high.
fn number_up_to(most: usize, field: &[u8]) -> Option<usize> {
    number(field).filter(|number| *number <= most)
}

/// Makes the call; tells what the line answers.
fn answer(line: &mut Line, call: Call) -> String {
    let answered = match call {
        Call::Offer { suite, message } => line.offer(suite, &message).map(|()| "ok".to_string()),
        Call::Settle => line.settle().map(|()| "ok".to_string()),
        Call::Count => line.count().map(|count| format!("count {count}")),
        Call::Fetch { number, room } => return fetched(line, number, room),
        Call::Agreed => agreed(line),
    };
    answered.unwrap_or_else(Refusal::words)
}

/// Fetches a message, and shows the whole buffer whatever the answer is.
fn fetched(line: &Line, number: u64, room: usize) -> String {
    let mut buffer = vec![BEFORE; room];
    let answer = match line.fetch(number, &mut buffer) {
        Ok(length) => format!("fetched {length}"),
        Err(refusal) => refusal.words(),
    };
    format!("{answer} {}", hex(&buffer))
}

/// Counts the agreed messages and fetches them all.
fn agreed(line: &Line) -> Result<String, Refusal> {
    let mut shown = "agreed".to_string();
    for number in 1..=line.count()? {
        let mut buffer = [0; LONGEST_MESSAGE];
        let length = line.fetch(number as u64, &mut buffer)?;
        shown = shown + " " + &hex(&buffer[..length]);
    }
    Ok(shown)
}

#[cfg(test)]
mod tests {
    use super::*;
    use crate::script::testing;

    fn answers(input: impl AsRef<[u8]>) -> String {
        testing::answers(LineTool::new, input)
    }

    fn check(lines: &[(&str, &str)]) {
        testing::check(LineTool::new, lines);
    }

    /// Checks that each of the script lines gets the error alone, in a tool
    /// that has a line and in one that has none.
    fn check_error(error: &str, lines: &[&str]) {
        let error = format!("error: {error}");
        for line in lines {
            check(&[(line, &error), ("turn 1168 0", "ok"), (line, &error)]);
        }
    }

    #[test]
    fn a_script_is_answered() {
        check(&[
            ("first-come 2336 255", "ok"),
            ("agreed", "agreed"),
            ("count", "count 0"),
            ("settle", "no 11"),
            ("offer 1 0a0B", "ok"),
            ("offer 2 0C", "ok"),
            ("offer 3 0d", "no 10"),
            ("count", "count 0"),
            ("fetch 1 4", "no 15 eeeeeeee"),
            ("settle", "ok"),
            ("count", "count 1"),
            ("fetch 1 4", "fetched 2 0a0beeee"),
            ("fetch 1 2", "fetched 2 0a0b"),
            ("fetch 1 1", "no 15 ee"),
            ("fetch 1 0", "no 15 "),
            ("fetch 2 2", "no 15 eeee"),
            ("agreed", "agreed 0a0b"),
            ("settle", "ok"),
            ("agreed", "agreed 0a0b 0c"),
            ("settle", "no 11"),
        ]);
    }

    #[test]
    fn both_lines_have_their_order() {
        let offers = "offer 3 a1\noffer 1 a2\noffer 1 a3\noffer 8 a4\noffer 2 a5\n";
        let script =
            |make: &str| format!("{make} 5840 1\n{offers}{}agreed\n", "settle\n".repeat(6));
        let both = answers(script("first-come") + &script("turn"));
        let expected = |order: &str| format!("{}no 11\nagreed {order}\n", "ok\n".repeat(11));
        assert_eq!(
            both,
            expected("a1 a2 a3 a4 a5") + &expected("a2 a5 a1 a4 a3")
        );
    }

    #[test]
    fn a_new_line_takes_the_place_of_the_one_before() {
        check(&[
            ("turn 1168 0", "ok"),
            ("offer 1 0a", "ok"),
            ("settle", "ok"),
            (
                "first-come 1168 256",
                "error: expected first-come BYTES FILL",
            ),
            ("turn 5000001 0", "error: expected turn BYTES FILL"),
            ("agreed", "agreed 0a"),
            ("first-come 01168 000", "ok"),
            ("agreed", "agreed"),
            ("offer 1 0a", "ok"),
            ("turn 1168 0", "ok"),
            ("settle", "no 11"),
        ]);
    }

    #[test]
    fn a_line_of_a_wrong_size_refuses_all_calls() {
        for make in [
            "turn 0 0",
            "first-come 1167 1",
            "turn 4785296 9",
            "first-come 5000000 255",
        ] {
            check(&[
                (make, "ok"),
                ("offer 1 0a", "no 4"),
                ("offer 9 ", "no 4"),
                ("settle", "no 4"),
                ("count", "no 4"),
                ("fetch 1 2", "no 4 eeee"),
                ("fetch 0 0", "no 4 "),
                ("agreed", "no 4"),
            ]);
        }
    }

    #[test]
    fn offers_are_refused_in_order() {
        let long = format!("offer 8 {}", "0f".repeat(1163));
        let longest = format!("offer 8 {}", "0f".repeat(1162));
        check(&[
            ("turn 1168 0", "ok"),
            ("offer 0 0a", "no 5"),
            ("offer 18446744073709551615 ", "no 5"),
            ("offer 1 ", "no 14"),
            (&long, "no 14"),
            (&longest, "ok"),
            ("offer 1 ", "no 10"),
            (&long, "no 10"),
            ("offer 257 ", "no 5"),
            ("settle", "ok"),
            ("offer 1 0a", "no 10"),
        ]);
    }

    #[test]
    fn calls_before_a_line_are_errors() {
        let none = "error: no line yet";
        check(&[
            ("offer 1 0a", none),
            ("offer 0 ", none),
            ("settle", none),
            ("count", none),
            ("fetch 0 0", none),
            ("agreed", none),
            ("turn 1168", "error: expected turn BYTES FILL"),
            ("count", none),
            ("turn 0 0", "ok"),
            ("count", "no 4"),
        ]);
    }

    #[test]
    fn forms_are_checked() {
        for word in ["first-come", "turn"] {
            let fields = [
                "",
                " ",
                " 1168",
                " 1168 ",
                "  0",
                " 1168 0 ",
                " 1168 0 0",
                " 1168  0",
                " 5000001 0",
                " 1168 256",
                " -1 0",
                " 1168 +1",
                " 1168 0\r",
                " 1168 x",
                " 18446744073709552784 0",
                " 1168 18446744073709551616",
            ];
            let lines: Vec<String> = fields.iter().map(|rest| format!("{word}{rest}")).collect();
            let lines: Vec<&str> = lines.iter().map(String::as_str).collect();
            check_error(&format!("expected {word} BYTES FILL"), &lines);
        }
        check_error(
            "expected offer SUITE HEX",
            &[
                "offer",
                "offer ",
                "offer 1",
                "offer  ",
                "offer  0a",
                "offer 1 0",
                "offer 1 0g",
                "offer 1 0a ",
                "offer 1 0a 0b",
                "offer 1  0a",
                "offer 1\t0a",
                "offer x 0a",
                "offer -1 0a",
                "offer 18446744073709551616 0a",
                "offer 1 0a\r",
                "offer 1 0x0a",
            ],
        );
        check_error("expected settle", &["settle ", "settle 1", "settle  "]);
        check_error("expected count", &["count ", "count 1"]);
        check_error(
            "expected fetch NUMBER ROOM",
            &[
                "fetch",
                "fetch ",
                "fetch 1",
                "fetch 1 ",
                "fetch  1",
                "fetch 1 2049",
                "fetch 1 2 ",
                "fetch 1 2 3",
                "fetch 18446744073709551616 2",
                "fetch x 2",
                "fetch 1 x",
                "fetch 1 18446744073709551616",
            ],
        );
        check_error("expected agreed", &["agreed ", "agreed 1"]);
    }

    #[test]
    fn first_words_are_known_or_not() {
        check_error(
            "unknown command",
            &[
                "Turn 1168 0",
                "first_come 1168 0",
                "first-come\t1168 0",
                "TURN",
                "settle\r",
                " settle",
                "settled",
                "\tcount",
                "agree",
                " ",
                "\r",
                "line",
                "send",
            ],
        );
    }

    #[test]
    fn numbers_at_their_limits_are_met() {
        let zeros = "0".repeat(4000);
        check(&[
            (&format!("turn {zeros}2336 255"), "ok"),
            (&format!("offer {zeros}8 0a"), "ok"),
            ("settle", "ok"),
            ("offer 18446744073709551615 0a", "no 5"),
            ("fetch 01 01", "fetched 1 0a"),
            (
                "fetch 1 2048",
                &format!("fetched 1 0a{}", "ee".repeat(2047)),
            ),
            ("fetch 18446744073709551615 1", "no 15 ee"),
        ]);
    }

    #[test]
    fn long_lines_empty_lines_and_comments() {
        let comment = |length: usize| format!("#{}", "x".repeat(length - 1));
        let offer = |length: usize| format!("offer {}1 0a", "0".repeat(length - 10));
        assert_eq!(offer(4096).len(), 4096);
        let long = "error: a line has at most 4096 bytes\n";
        let script = [
            "turn 2336 0".to_string(),
            comment(4096),
            offer(4096),
            String::new(),
            offer(4097),
            comment(4096) + "settle",
            "settle".to_string(),
            comment(4097),
            "agreed".to_string(),
        ];
        assert_eq!(
            answers(script.join("\n")),
            format!("ok\nok\n{long}{long}ok\n{long}agreed 0a\n")
        );
    }
}
