//! What the generated script lines have, and which states the sessions get into.

use super::counts::{add_counts, Counts};
use super::*;
use crate::script::testing::answer_lines;
use crate::session::{Slot, SLOTS};
use std::collections::BTreeSet;

/// The seed of the stored run, and the number of its cases.
const STORED_SEED: u64 = 7;
const STORED: u64 = 128;

fn generated(seed: u64, cases: u64) -> Vec<u8> {
    let mut bytes = Vec::new();
    generate(seed, cases, &mut bytes).unwrap();
    bytes
}

fn lines_of(bytes: &[u8]) -> impl Iterator<Item = &[u8]> {
    bytes.split(|byte| *byte == b'\n')
}

#[test]
fn a_seed_always_gives_the_same_lines() {
    assert_eq!(generated(1, 20), generated(1, 20));
    assert_ne!(generated(1, 20), generated(2, 20));
}

#[test]
fn no_seed_and_no_number_of_cases_fails() {
    for seed in [0, u64::MAX].into_iter().chain(3..30) {
        let bytes = generated(seed, seed % 10);
        assert!(!answer_lines(SessionTool::default, &bytes).is_empty());
        assert_ne!(bytes.last(), Some(&b'\n'));
    }
}

#[test]
fn the_size_stays_within_bounds() {
    for seed in 1..6 {
        let bytes = generated(seed, STORED);
        assert!((20_000..50_000).contains(&lines_of(&bytes).count()));
        assert!(bytes.len() < 2_000_000);
    }
}

#[test]
fn sessions_differ_in_size() {
    let mut suites = BTreeSet::new();
    let mut nodes = BTreeSet::new();
    let mut places = BTreeSet::new();
    for seed in 0..200 {
        let mut stream = Stream::<SessionTool>::new(seed);
        stream.make_session(seed as usize);
        suites.insert(stream.suites());
        nodes.insert(stream.nodes().len());
        places.insert(stream.places());
    }
    assert_eq!(suites, (1..=8).collect());
    assert!(nodes.len() > 15 && nodes.contains(&1) && nodes.contains(&64));
    assert!((1..=40).filter(|count| places.contains(count)).count() > 30);
    assert!(places.contains(&4096));
}

/// The answers that there are to the lines of a combination.
const KINDS: [&str; 49] = [
    "session ok",
    "session no 1",
    "session no 2",
    "session no 3",
    "session no 4",
    "begin ok",
    "begin no 5",
    "begin no 6",
    "read set",
    "read no 5",
    "read no 6",
    "read no 7",
    "read no 8",
    "write ok",
    "write no 5",
    "write no 6",
    "write no 7",
    "write no 8",
    "commit read",
    "commit clash",
    "commit sent",
    "commit no 5",
    "commit no 6",
    "commit no 10",
    "abandon ok",
    "abandon no 5",
    "abandon no 6",
    "collect done",
    "collect clash",
    "collect no 5",
    "collect no 6",
    "collect no 13",
    "settle ok",
    "settle no 11",
    "take done",
    "take clash",
    "take no 5",
    "take no 12",
    "error: a line has at most 4096 bytes",
    "error: unknown command",
    "error: expected session SETTING SUMMARY LINE PLACES SUITES NODES",
    "error: expected begin SUITE SLOT",
    "error: expected read SUITE SLOT NODE",
    "error: expected write SUITE SLOT NODE VALUE",
    "error: expected commit SUITE SLOT",
    "error: expected abandon SUITE SLOT",
    "error: expected collect SUITE SLOT",
    "error: expected settle",
    "error: expected take SUITE",
];

/// Checks that each answer comes up so often for each combination, and that
/// there is no other.
fn check_counts(mut counts: Counts, least: u64) {
    for kind in KINDS {
        let counts = counts.remove(kind).unwrap_or_default();
        for (number, count) in counts[..COMBINATIONS].iter().enumerate() {
            assert!(
                *count >= least,
                "{kind:?} comes up {count} times in {number}"
            );
        }
    }
    let none = counts.remove("error: no session").unwrap_or_default();
    assert!(none[COMBINATIONS] >= 100 * least);
    assert!(counts.is_empty(), "{counts:?}");
}

#[test]
fn every_answer_comes_up_for_each_combination() {
    let mut counts = Counts::new();
    for seed in 1..=10 {
        add_counts(seed, STORED, &mut counts).unwrap();
    }
    check_counts(counts, 10);
}

#[test]
fn the_stored_run_has_every_answer_for_each_combination() {
    let mut counts = Counts::new();
    add_counts(STORED_SEED, STORED, &mut counts).unwrap();
    check_counts(counts, 1);
}

/// The answers of each session that is made, from its making on.
fn sessions(bytes: &[u8]) -> Vec<Vec<String>> {
    let mut tool = SessionTool::default();
    let mut sessions = vec![Vec::new()];
    for line in lines_of(bytes) {
        if tool.makes(line) {
            sessions.push(Vec::new());
        }
        let answer = Program::answer(&mut tool, line);
        sessions.last_mut().unwrap().push(answer);
    }
    sessions
}

/// In how many sessions of a few seeds the answers are others with another
/// word in their making.
fn changed_sessions(word: &str, other: &str) -> usize {
    let mut changed = 0;
    for seed in 1..=4 {
        let bytes = generated(seed, STORED);
        let replaced: Vec<Vec<u8>> = lines_of(&bytes)
            .map(|line| with_other_word(line, word, other))
            .collect();
        let pairs = sessions(&bytes)
            .into_iter()
            .zip(sessions(&replaced.join(&b'\n')));
        changed += pairs.filter(|(one, two)| one != two).count();
    }
    changed
}

fn with_other_word(line: &[u8], word: &str, other: &str) -> Vec<u8> {
    match String::from_utf8(line.to_vec()) {
        Ok(text) if SessionTool::default().makes(line) => text.replace(word, other).into_bytes(),
        _ => line.to_vec(),
    }
}

#[test]
fn it_shows_which_line_a_session_has() {
    assert!(changed_sessions(" turn ", " first-come ") > 80);
    assert!(changed_sessions(" first-come ", " turn ") > 80);
}

#[test]
fn it_shows_which_summary_a_session_has() {
    assert!(changed_sessions(" bloom ", " exact ") > 80);
    assert!(changed_sessions(" exact ", " bloom ") > 80);
}

#[test]
fn many_moves_are_open_at_many_snapshots() {
    let mut crowds = [0; COMBINATIONS];
    for seed in 1..=8 {
        let mut tool = SessionTool::default();
        for line in lines_of(&generated(seed, STORED)) {
            Program::answer(&mut tool, line);
            if let Some(number) = counts::kinds(&tool) {
                crowds[number] += usize::from(is_crowded(&tool));
            }
        }
    }
    assert!(crowds.iter().all(|count| *count > 50), "{crowds:?}");
}

/// Whether the moves of some suite have four snapshots.
fn is_crowded(tool: &SessionTool) -> bool {
    let suites = tool.grade.iter().flat_map(|grade| &grade.session.suites);
    let mut snapshots = suites.map(|suite| {
        let open = suite.slots.iter().filter_map(|slot| match slot {
            Slot::Open(open) => Some(open.snapshot),
            _ => None,
        });
        open.collect::<BTreeSet<u32>>().len()
    });
    snapshots.any(|count| count == SLOTS)
}

#[test]
fn stamps_get_more_than_a_byte_can_hold() {
    let mut tool = SessionTool::default();
    let mut highest = 0;
    for line in lines_of(&generated(STORED_SEED, STORED)) {
        Program::answer(&mut tool, line);
        let suites = tool.grade.iter().flat_map(|grade| &grade.session.suites);
        highest = suites.map(|suite| suite.stamp).fold(highest, u32::max);
    }
    assert!(highest > 256, "{highest}");
}

#[test]
fn lines_of_about_the_longest_length_come_up() {
    let mut counts = [0; 3];
    for line in lines_of(&generated(STORED_SEED, STORED)) {
        for (more, count) in counts.iter_mut().enumerate() {
            *count += usize::from(line.len() == LONGEST_LINE - 1 + more);
        }
    }
    assert!(counts.iter().all(|count| *count > 5), "{counts:?}");
}
