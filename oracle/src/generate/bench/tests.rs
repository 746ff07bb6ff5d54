//! What the generated lines have, and which states the session gets into.

use super::counts::{add_counts, Counts};
use super::*;
use crate::message::MOST_WRITES;
use crate::session::{Open, Slot, SLOTS};
use crate::summaries::MOST_NUMBERS;
use std::collections::BTreeSet;

fn generated(seed: u64, lines: u64) -> Vec<u8> {
    let mut bytes = Vec::new();
    generate(seed, lines, &mut bytes).unwrap();
    bytes
}

fn lines_of(bytes: &[u8]) -> impl Iterator<Item = &[u8]> {
    bytes.split(|byte| *byte == b'\n')
}

#[test]
fn a_seed_always_gives_the_same_lines() {
    assert_eq!(generated(1, 300), generated(1, 300));
    assert_ne!(generated(1, 300), generated(2, 300));
}

#[test]
fn no_seed_and_no_number_of_lines_fails() {
    for seed in [0, u64::MAX].into_iter().chain(3..60) {
        for lines in [0, 1, seed % 1500] {
            let bytes = generated(seed, lines);
            let count = lines_of(&bytes).count() as u64;
            assert!((lines..lines + 400).contains(&count), "{count}");
            assert_ne!(bytes.last(), Some(&b'\n'));
        }
    }
}

#[test]
fn a_script_is_one_session() {
    for seed in 0..60 {
        let bytes = generated(seed, 450);
        assert!(lines_of(&bytes).all(|line| line != b"---"));
        let mut bench = Bench::default();
        let mut made = 0;
        let mut sent = 0;
        for line in lines_of(&bytes) {
            let was_made = bench.grade.is_some();
            let answer = bench.answer(line);
            made += usize::from(!was_made && bench.grade.is_some());
            sent += usize::from(answer == "sent");
        }
        assert_eq!(made, 1);
        assert!(sent <= 32);
    }
}

#[test]
fn sessions_differ_in_size() {
    let mut suites = BTreeSet::new();
    let mut nodes = BTreeSet::new();
    for seed in 0..200 {
        let mut stream = Stream::<Bench>::new(seed);
        stream.make_session();
        suites.insert(stream.suites());
        nodes.insert(stream.nodes().len());
    }
    assert_eq!(suites, (1..=8).collect());
    assert!(nodes.len() > 15 && nodes.contains(&1) && nodes.contains(&64));
}

#[test]
fn every_answer_comes_up() {
    let mut counts = Counts::new();
    for seed in 1..=60 {
        add_counts(seed, 450, &mut counts).unwrap();
    }
    for kind in [
        "N ok", "N no 1", "N no 2", "N no 3", "B ok", "B no 5", "B no 6", "R set", "R no 5",
        "R no 6", "R no 7", "R no 8", "W ok", "W no 5", "W no 6", "W no 7", "W no 8", "C read",
        "C clash", "C sent", "C no 5", "C no 6", "C no 10", "A ok", "A no 5", "A no 6", "K done",
        "K clash", "K no 5", "K no 6", "K no 13", "S ok", "S no 11", "T done", "T clash", "T no 5",
        "T no 12", "bad",
    ] {
        let count = counts.remove(kind).unwrap_or(0);
        assert!(count >= 20, "{kind:?} comes up {count} times");
    }
    assert!(counts.is_empty(), "{counts:?}");
}

#[test]
fn lines_of_about_the_longest_length_come_up() {
    let mut counts = [0; 3];
    for seed in 1..=60 {
        for line in lines_of(&generated(seed, 450)) {
            for (more, count) in counts.iter_mut().enumerate() {
                *count += usize::from(line.len() == LONGEST_LINE - 1 + more);
            }
        }
    }
    assert!(counts.iter().all(|count| *count > 5), "{counts:?}");
}

/// The states that tell a session that does all as the rules say from one that
/// does nearly so.
#[test]
fn telling_states_come_up() {
    let mut sights = Counts::new();
    for seed in 1..=100 {
        let mut bench = Bench::default();
        for line in lines_of(&generated(seed, 450)) {
            let slots = slots_of(&bench);
            let answer = bench.answer(line);
            let crowds = slots.iter().filter_map(crowd);
            for sight in crowds.chain(end(line, &answer, &slots)) {
                *sights.entry(sight.to_string()).or_default() += 1;
            }
        }
    }
    for (sight, least) in [
        ("four moves are open at a suite", 500),
        ("four moves have four snapshots", 100),
        ("a move at an old snapshot reads", 300),
        ("a move with 32 reads is sent", 10),
        ("a move with 32 reads clashes", 3),
        ("a move with 16 writes is sent", 10),
        ("a move clashes at another node than it read first", 20),
        ("a full line refuses a move", 100),
        ("a move that only reads ends", 100),
    ] {
        let count = sights.get(sight).copied().unwrap_or(0);
        assert!(count >= least, "{sight}: {count} times");
    }
}

/// The slots of each suite.
fn slots_of(bench: &Bench) -> Vec<[Slot; SLOTS]> {
    let suites = bench.grade.iter().flat_map(|grade| &grade.session.suites);
    suites.map(|suite| suite.slots.clone()).collect()
}

fn open_move(slot: &Slot) -> Option<&Open> {
    match slot {
        Slot::Open(open) => Some(open),
        _ => None,
    }
}

/// Whether all slots of a suite are open.
fn crowd(slots: &[Slot; SLOTS]) -> Option<&'static str> {
    let moves: Vec<&Open> = slots.iter().filter_map(open_move).collect();
    let snapshots: BTreeSet<u32> = moves.iter().map(|open| open.snapshot).collect();
    match (moves.len(), snapshots.len()) {
        (SLOTS, SLOTS) => Some("four moves have four snapshots"),
        (SLOTS, _) => Some("four moves are open at a suite"),
        _ => None,
    }
}

/// What is worth seeing in the answer to a read or a commit, before which the
/// slots were these.
fn end(line: &[u8], answer: &str, slots: &[[Slot; SLOTS]]) -> Option<&'static str> {
    let words = String::from_utf8_lossy(line);
    let numbers: Vec<usize> = words.split(' ').skip(1).flat_map(str::parse).collect();
    let (suite, slot) = (
        numbers.first()?.checked_sub(1)?,
        numbers.get(1)?.checked_sub(1)?,
    );
    let suite = slots.get(suite)?;
    let own = open_move(suite.get(slot)?)?;
    let newest = suite
        .iter()
        .filter_map(open_move)
        .map(|open| open.snapshot)
        .max();
    let many_reads = own.reads.len() == MOST_NUMBERS;
    let first_read = own.reads.first().map(|node| format!("clash {node}"));
    Some(match (line[0], answer.split(' ').next()?) {
        (b'R', "set") if Some(own.snapshot) < newest => "a move at an old snapshot reads",
        (b'C', "sent") if many_reads => "a move with 32 reads is sent",
        (b'C', "clash") if many_reads => "a move with 32 reads clashes",
        (b'C', "sent") if own.writes == MOST_WRITES => "a move with 16 writes is sent",
        (b'C', "clash") if Some(answer) != first_read.as_deref() => {
            "a move clashes at another node than it read first"
        }
        (b'C', "no") => "a full line refuses a move",
        (b'C', "read") => "a move that only reads ends",
        _ => return None,
    })
}
