//! What the session tool answers.

use super::*;
use crate::script::testing;
use crate::summaries::SummaryKind;

const KINDS: [&str; 8] = [
    "colour exact first-come",
    "colour exact turn",
    "colour bloom first-come",
    "colour bloom turn",
    "link exact first-come",
    "link exact turn",
    "link bloom first-come",
    "link bloom turn",
];

const NO_SESSION: &str = "error: no session";

fn answers(input: impl AsRef<[u8]>) -> String {
    testing::answers(SessionTool::default, input)
}

fn check(lines: &[(&str, &str)]) {
    testing::check(SessionTool::default, lines);
}

/// Checks that each of the script lines gets the error alone, in a tool that
/// has no session and in ones that have one.
fn check_error(error: &str, lines: &[&str]) {
    let error = format!("error: {error}");
    for line in lines {
        check(&[
            (line, &error),
            ("session colour exact turn 1 1 7", "ok"),
            (line, &error),
            ("begin 1 1", "ok 0"),
            ("session link bloom first-come 1 1 7", "ok"),
            (line, &error),
            ("begin 1 1", "ok 0"),
        ]);
    }
}

/// The words of a setting of the kind that a session has.
fn value<'a>(kinds: &str, colour: &'a str, link: &'a str) -> &'a str {
    if kinds.starts_with("colour") {
        colour
    } else {
        link
    }
}

#[test]
fn one_move_goes_through_both_suites() {
    for kinds in KINDS {
        let start = value(kinds, "0 0 0", "none");
        let other = value(kinds, "1 -1 0", "9");
        check(&[
            (&format!("session {kinds} 1 2 7 9"), "ok"),
            ("begin 1 1", "ok 0"),
            ("read 1 1 7", &format!("set {start}")),
            (&format!("write 1 1 7 {other}"), "ok"),
            ("read 1 1 7", &format!("set {other}")),
            ("commit 1 1", "sent"),
            ("settle", "ok"),
            ("settle", "no 11"),
            ("take 2", "done 1"),
            ("collect 1 1", "no 13"),
            ("take 1", "done 1"),
            ("take 1", "no 12"),
            ("collect 1 1", "done 1"),
            ("collect 1 1", "no 6"),
            ("begin 2 4", "ok 1"),
            ("read 2 4 7", &format!("set {other}")),
            ("commit 2 4", "read 1"),
            ("begin 2 4", "ok 1"),
            (&format!("write 2 4 7 {start}"), "ok"),
            ("commit 2 4", "no 10"),
            ("abandon 2 4", "ok"),
        ]);
    }
}

#[test]
fn crossing_moves_clash() {
    for kinds in KINDS {
        let value = value(kinds, "1 2 3", "none");
        check(&[
            (&format!("session {kinds} 5000 2 7 9"), "no 4"),
            (&format!("session {kinds} 4096 2 7 9"), "ok"),
            ("begin 1 1", "ok 0"),
            ("begin 2 1", "ok 0"),
            ("begin 2 2", "ok 0"),
            ("read 2 2 9", &format!("set {}", start(kinds))),
            (&format!("write 2 2 7 {value}"), "ok"),
            ("read 1 1 7", &format!("set {}", start(kinds))),
            ("read 2 1 9", &format!("set {}", start(kinds))),
            (&format!("write 1 1 9 {value}"), "ok"),
            (&format!("write 2 1 7 {value}"), "ok"),
            ("commit 1 1", "sent"),
            ("commit 2 1", "sent"),
            ("settle", "ok"),
            ("settle", "ok"),
            ("take 1", "done 1"),
            ("take 1", "clash 9"),
            ("take 2", "done 1"),
            ("take 2", "clash 9"),
            ("commit 2 2", "clash 9"),
            ("collect 2 1", "clash 9"),
            ("collect 1 1", "done 1"),
        ]);
    }
}

fn start(kinds: &str) -> &'static str {
    value(kinds, "0 0 0", "none")
}

#[test]
fn the_line_orders_the_messages() {
    for (line, orders) in [
        ("first-come", ["30", "31", "10", "20"]),
        ("turn", ["10", "20", "30", "31"]),
    ] {
        let mut script = format!("session link exact {line} 9 3 7\n");
        let mut expected = "ok\n".to_string();
        for (suite, slot, value) in [(3, 1, 30), (3, 2, 31), (1, 1, 10), (2, 1, 20)] {
            script += &format!("begin {suite} {slot}\nwrite {suite} {slot} 7 {value}\n");
            script += &format!("commit {suite} {slot}\n");
            expected += "ok 0\nok\nsent\n";
        }
        for (stamp, value) in (1..).zip(orders) {
            script += "settle\ntake 2\nbegin 2 4\nread 2 4 7\ncommit 2 4\n";
            expected += &format!("ok\ndone {stamp}\nok {stamp}\nset {value}\nread {stamp}\n");
        }
        assert_eq!(answers(script), expected, "{line}");
    }
}

/// A move that has read node 7 clashes at a node that it has not read, if the
/// Bloom summary of node 7 names that.
#[test]
fn a_bloom_summary_may_name_what_was_not_read() {
    let packed = SummaryKind::Bloom.pack(&[7]).unwrap();
    let named = |node: &u64| SummaryKind::Bloom.names(&packed, *node) == Some(true);
    let misnamed = (8..).find(named).unwrap();
    for (summary, ruling) in [
        ("exact", "done 2".to_string()),
        ("bloom", format!("clash {misnamed}")),
    ] {
        check(&[
            (
                &format!("session colour {summary} turn 2 1 7 {misnamed}"),
                "ok",
            ),
            ("begin 1 1", "ok 0"),
            ("read 1 1 7", "set 0 0 0"),
            ("write 1 1 7 1 1 1", "ok"),
            ("begin 1 2", "ok 0"),
            (&format!("write 1 2 {misnamed} 2 2 2"), "ok"),
            ("commit 1 2", "sent"),
            ("settle", "ok"),
            ("take 1", "done 1"),
            ("commit 1 1", "sent"),
            ("settle", "ok"),
            ("take 1", &ruling),
            ("collect 1 1", &ruling),
        ]);
    }
}

#[test]
fn a_session_holds_nothing_of_the_one_before() {
    for kinds in KINDS {
        let first = format!("session {kinds} 2 2 7 9");
        let written = value(kinds, "1 2 3", "7");
        check(&[
            (&first, "ok"),
            ("begin 1 1", "ok 0"),
            (&format!("write 1 1 7 {written}"), "ok"),
            ("commit 1 1", "sent"),
            ("settle", "ok"),
            ("take 1", "done 1"),
            ("begin 2 1", "ok 0"),
            (&format!("write 2 1 9 {written}"), "ok"),
            ("commit 2 1", "sent"),
            ("begin 1 2", "ok 1"),
            (&first, "ok"),
            ("settle", "no 11"),
            ("take 2", "no 12"),
            ("collect 1 1", "no 6"),
            ("commit 1 2", "no 6"),
            ("begin 1 2", "ok 0"),
            ("read 1 2 7", &format!("set {}", start(kinds))),
            (&format!("write 1 2 9 {written}"), "ok"),
            ("commit 1 2", "sent"),
        ]);
    }
}

#[test]
fn refused_sessions_are_none() {
    let nodes = |from: u64, to: u64| -> String { (from..to).map(|n| format!(" {n}")).collect() };
    let many = nodes(0, 65);
    for (end, refusal) in [
        ("1 0 7".to_string(), "no 1"),
        ("1 9 7".to_string(), "no 1"),
        ("1 18446744073709551615".to_string(), "no 1"),
        ("0 257 7 7".to_string(), "no 1"),
        ("1 1".to_string(), "no 2"),
        ("0 8".to_string(), "no 2"),
        (format!("1 8{many}"), "no 2"),
        (format!("1 8{many} 7"), "no 2"),
        ("1 1 7 9 007".to_string(), "no 3"),
        ("0 2 7 7".to_string(), "no 3"),
        ("0 1 7".to_string(), "no 4"),
        ("4097 8 7".to_string(), "no 4"),
        ("5000 1 7".to_string(), "no 4"),
    ] {
        for kinds in KINDS {
            check(&[
                (&format!("session {kinds} 4096 8{}", nodes(1, 65)), "ok"),
                ("begin 8 4", "ok 0"),
                (&format!("session {kinds} {end}"), refusal),
                ("begin 8 4", NO_SESSION),
                ("take 9", NO_SESSION),
            ]);
        }
    }
}

#[test]
fn calls_before_a_session_are_errors() {
    check(&[
        ("begin 1 1", NO_SESSION),
        ("read 0 9 7", NO_SESSION),
        ("write 1 1 7 none", NO_SESSION),
        ("write 1 1 7 7", NO_SESSION),
        ("write 1 1 7 1 -2 3", NO_SESSION),
        (
            "write 1 1 7 -2",
            "error: expected write SUITE SLOT NODE VALUE",
        ),
        ("commit 1 1", NO_SESSION),
        ("abandon 1 1", NO_SESSION),
        ("collect 1 1", NO_SESSION),
        ("settle", NO_SESSION),
        ("take 1", NO_SESSION),
    ]);
}

#[test]
fn an_error_keeps_the_session() {
    let error = "error: expected session SETTING SUMMARY LINE PLACES SUITES NODES";
    check(&[
        ("session colour exact turn 1 1 7", "ok"),
        ("begin 1 1", "ok 0"),
        ("session colour exact turn 5001 1 7", error),
        ("session colour exact turn 1 1 7 ", error),
        ("begin 1 1", "no 6"),
    ]);
}

#[test]
fn values_are_judged_by_the_kind() {
    let error = "error: expected write SUITE SLOT NODE VALUE";
    for (kind, good, bad) in [
        (
            "colour",
            &["-0 00 1", "2147483647 -2147483648 0"][..],
            &["none", "7", "none none none", "2147483648 0 0"][..],
        ),
        (
            "link",
            &["none", "007", "18446744073709551615"],
            &["1 2 3", "-0", "18446744073709551616", "None", "7 "],
        ),
    ] {
        for value in good {
            let write = format!("write 1 1 7 {value}");
            let make = format!("session {kind} exact turn 1 1 7");
            check(&[(&make, "ok"), ("begin 1 1", "ok 0"), (&write, "ok")]);
        }
        for value in bad {
            // The form comes before the refusal that the call would get.
            let write = format!("write 9 1 7 {value}");
            let make = format!("session {kind} exact turn 1 1 7");
            check(&[(&make, "ok"), (&write, error)]);
        }
    }
}

#[test]
fn forms_are_checked() {
    check_error(
        "expected session SETTING SUMMARY LINE PLACES SUITES NODES",
        &[
            "session",
            "session ",
            "session colour",
            "session colour exact",
            "session colour exact turn",
            "session colour exact turn 1",
            "session colour exact turn 1 ",
            "session colour exact turn 1 1 ",
            "session colour exact turn 1 1 7 ",
            "session colour exact turn 1 1  7",
            "session colour exact turn 1 1 x",
            "session colour exact turn 1 1 -7",
            "session colour exact turn 1 1 18446744073709551616",
            "session colour exact turn 1 18446744073709551616 7",
            "session colour exact turn 5001 1 7",
            "session colour exact turn -1 1 7",
            "session Colour exact turn 1 1 7",
            "session links exact turn 1 1 7",
            "session colour Bloom turn 1 1 7",
            "session colour exact first_come 1 1 7",
            "session exact colour turn 1 1 7",
            "session  colour exact turn 1 1 7",
            "session colour exact turn 1 1 7\r",
        ],
    );
    for word in ["begin", "commit", "abandon", "collect"] {
        let rests = ["", " ", " 1", " 1 ", " 1 1 ", " 1 1 1", " 1  1", " x 1"];
        let more = [" 1 -1", " 1 18446744073709551616", " 1 1\r", " 1\t1"];
        let lines: Vec<String> = rests
            .iter()
            .chain(&more)
            .map(|r| format!("{word}{r}"))
            .collect();
        let lines: Vec<&str> = lines.iter().map(String::as_str).collect();
        check_error(&format!("expected {word} SUITE SLOT"), &lines);
    }
    check_error(
        "expected read SUITE SLOT NODE",
        &[
            "read",
            "read 1 1",
            "read 1 1 ",
            "read 1 1 x",
            "read 1 1 7 7",
        ],
    );
    check_error(
        "expected write SUITE SLOT NODE VALUE",
        &[
            "write",
            "write 1 1 7",
            "write 1 1 7 ",
            "write 1 1  none",
            "write 1 1 7 1 2",
            "write 1 1 7 1 2 3 4",
            "write 1 1 7 1 2 3 ",
            "write 1 1 7 none ",
            "write 1 1 7 none none",
            "write 1 1 7 1 2 none",
            "write 1 1 x none",
            "write 1 1 7 +1 0 0",
        ],
    );
    check_error("expected settle", &["settle ", "settle 1"]);
    check_error(
        "expected take SUITE",
        &["take", "take ", "take 1 ", "take 1 1", "take x"],
    );
}

#[test]
fn first_words_are_known_or_not() {
    check_error(
        "unknown command",
        &[
            "Session", " settle", "settle\r", "B 1 1", "---", " ", "sessions", "\tsettle", "void",
        ],
    );
}

#[test]
fn long_lines_empty_lines_and_comments() {
    let begin = |length: usize| format!("begin {}1 1", "0".repeat(length - 9));
    let comment = |length: usize| "#".repeat(length);
    let long = "error: a line has at most 4096 bytes\n";
    let script = [
        "session colour exact turn 1 1 7".to_string(),
        comment(4096),
        begin(4097),
        String::new(),
        begin(4096),
        comment(4097),
        begin(10_000),
        "begin 1 1".to_string(),
    ];
    assert_eq!(
        answers(script.join("\n")),
        format!("ok\n{long}ok 0\n{long}{long}no 6\n")
    );
    assert_eq!(answers(""), "");
    assert_eq!(answers("\n#\n"), "");
    assert_eq!(answers("settle"), "error: no session\n");
}
