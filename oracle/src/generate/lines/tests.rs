//! What the generated script lines have, and what the tool answers to them.

use super::*;
use crate::generate::full_line;
use crate::line_tool::LineTool;
use crate::script::testing;
use std::collections::BTreeSet;

/// The number of cases that the stored run has.
const STORED: u64 = 84;

fn generated(seed: u64, cases: u64) -> Vec<u8> {
    let mut lines = Vec::new();
    generate(seed, cases, &mut lines).unwrap();
    lines
}

fn answered(lines: &[u8]) -> Vec<String> {
    testing::answer_lines(LineTool::new, lines)
}

/// Each line that gets an answer, with its answer.
fn asked_and_answered(lines: &[u8]) -> Vec<(String, String)> {
    lines
        .split(|byte| *byte == b'\n')
        .filter(|line| !line.is_empty() && (line[0] != b'#' || line.len() > LONGEST_LINE))
        .map(|line| String::from_utf8_lossy(line).into_owned())
        .zip(answered(lines))
        .collect()
}

#[test]
fn a_seed_always_gives_the_same_lines() {
    assert_eq!(generated(1, 100), generated(1, 100));
    assert_ne!(generated(1, 100), generated(2, 100));
}

#[test]
fn no_seed_and_no_number_of_cases_fails() {
    for seed in [0, u64::MAX].into_iter().chain(3..40) {
        assert!(!answered(&generated(seed, seed % 50)).is_empty());
    }
}

#[test]
fn the_size_stays_within_bounds() {
    for seed in 1..6 {
        let lines = generated(seed, 150);
        assert!(lines.len() < 300_000);
        assert!(lines.iter().filter(|byte| **byte == b'\n').count() < 10_000);
    }
    assert!(generated(1, STORED).len() < 200_000);
}

#[test]
fn the_stored_run_has_all_ways() {
    let cases: Vec<Family> = (0..STORED as usize)
        .map(|case| ROUND[case % ROUND.len()])
        .collect();
    let mut families = BTreeSet::new();
    for family in ROUND {
        let count = cases.iter().filter(|other| **other == family).count();
        assert!(count >= family.ways(), "{family:?}");
        families.insert(family as usize);
    }
    assert_eq!(families.len(), FAMILIES);
}

#[test]
fn lines_of_about_the_longest_length_come_up() {
    let lines = generated(1, STORED);
    assert_ne!(lines.last(), Some(&b'\n'));
    for length in [LONGEST_LINE - 1, LONGEST_LINE, LONGEST_LINE + 1] {
        let count = lines
            .split(|byte| *byte == b'\n')
            .filter(|line| line.len() == length)
            .count();
        assert!(count >= LONG.len(), "{count} lines of {length} bytes");
    }
}

#[test]
fn every_answer_comes_up() {
    let answers = answered(&generated(1, STORED));
    for front in [
        "ok",
        "count 0",
        "count 3",
        "fetched 1 ",
        "fetched 1162 ",
        "agreed",
        "no 4",
        "no 4 ee",
        "no 5",
        "no 10",
        "no 11",
        "no 14",
        "no 15 ",
        "error: a line has at most 4096 bytes",
        "error: unknown command",
        "error: expected first-come BYTES FILL",
        "error: expected turn BYTES FILL",
        "error: expected offer SUITE HEX",
        "error: expected settle",
        "error: expected count",
        "error: expected fetch NUMBER ROOM",
        "error: expected agreed",
        "error: no line yet",
    ] {
        let count = answers
            .iter()
            .filter(|line| line.starts_with(front))
            .count();
        assert!(count >= 4, "{front:?} comes up {count} times");
    }
}

#[test]
fn calls_are_errors_before_a_line_is_made() {
    let lines = asked_and_answered(&generated(1, 0));
    let made = lines.iter().position(|(_, answer)| answer == "ok").unwrap();
    for call in ["offer", "settle", "count", "fetch", "agreed"] {
        for error in ["error: no line yet", "error: expected "] {
            let comes_up = lines[..made]
                .iter()
                .any(|(line, answer)| line.starts_with(call) && answer.starts_with(error));
            assert!(comes_up, "{call} {error}");
        }
    }
}

/// The refusals whose cause holds for an offer to a line of so many places
/// that holds so many messages.
fn causes(line: &str, places: usize, held: usize) -> Vec<&'static str> {
    let fields: Vec<&str> = line.split(' ').collect();
    let suite: u64 = fields[1].parse().unwrap();
    let mut causes = Vec::new();
    if places == 0 || places > 4096 {
        causes.push("no 4");
    }
    if suite == 0 || suite > 8 {
        causes.push("no 5");
    }
    if held == places {
        causes.push("no 10");
    }
    if fields[2].is_empty() || fields[2].len() > 2 * 1162 {
        causes.push("no 14");
    }
    causes
}

#[test]
fn refusals_come_up_together() {
    let mut sets = BTreeSet::new();
    let (mut kind, mut places, mut held) = (String::new(), 0, 0);
    for (line, answer) in asked_and_answered(&generated(1, STORED)) {
        let fields: Vec<&str> = line.split(' ').collect();
        if answer == "ok" && ["first-come", "turn"].contains(&fields[0]) {
            kind = fields[0].to_string();
            (places, held) = (fields[1].parse::<usize>().unwrap() / 1168, 0);
        }
        if fields[0] == "offer" && !answer.starts_with("error") {
            let causes = causes(&line, places, held);
            assert_eq!(answer, *causes.first().unwrap_or(&"ok"), "{line}");
            held += usize::from(causes.is_empty());
            sets.insert((kind.clone(), causes));
        }
    }
    for kind in ["first-come", "turn"] {
        for causes in [
            &["no 4"][..],
            &["no 4", "no 5"],
            &["no 4", "no 10"],
            &["no 4", "no 14"],
            &["no 4", "no 5", "no 10"],
            &["no 4", "no 5", "no 14"],
            &["no 4", "no 10", "no 14"],
            &["no 4", "no 5", "no 10", "no 14"],
            &["no 5"],
            &["no 5", "no 10"],
            &["no 5", "no 14"],
            &["no 5", "no 10", "no 14"],
            &["no 10"],
            &["no 10", "no 14"],
            &["no 14"],
        ] {
            let set = (kind.to_string(), causes.to_vec());
            assert!(sets.contains(&set), "{set:?}");
        }
    }
}

#[test]
fn the_full_line_is_full() {
    let mut lines = Vec::new();
    full_line::generate(&mut lines).unwrap();
    let answers = answered(&lines);
    assert_eq!(answers.len(), 2 * (1 + 4096 + 1 + 5 + 1 + 7 + 1 + 1));
    let mut orders = ["agreed 00 01 02 03 04", "agreed 05 06 07 00 01"].into_iter();
    for half in answers.chunks(answers.len() / 2) {
        assert!(half[..4097].iter().all(|answer| answer == "ok"));
        assert_eq!(half[4097], "no 10");
        assert_eq!(half[4103], "count 5");
        assert_eq!(half[4111], "no 10");
        assert_eq!(Some(&half[4112][..]), orders.next());
    }
}
