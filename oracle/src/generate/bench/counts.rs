//! How often each answer comes up in the lines for the bench.

use std::collections::BTreeMap;
use std::io::{self, Write};

use super::generate;
use crate::bench::Bench;

/// How often each kind of answer comes up.
pub type Counts = BTreeMap<String, u64>;

/// Prints how often each answer comes up in the sessions of so many seeds.
pub fn count(first: u64, seeds: u64, lines: u64, output: &mut impl Write) -> io::Result<()> {
    let mut counts = Counts::new();
    for seed in first..first + seeds {
        add_counts(seed, lines, &mut counts)?;
    }
    writeln!(output, "{:8} answers", counts.values().sum::<u64>())?;
    for (kind, count) in counts {
        writeln!(output, "{count:8} {kind}")?;
    }
    Ok(())
}

/// Counts the answers of the session of a seed.
pub fn add_counts(seed: u64, lines: u64, counts: &mut Counts) -> io::Result<()> {
    let mut bytes = Vec::new();
    generate(seed, lines, &mut bytes)?;
    let mut bench = Bench::default();
    for line in bytes.split(|byte| *byte == b'\n') {
        let answer = bench.answer(line);
        *counts.entry(kind(line, &answer)).or_default() += 1;
    }
    Ok(())
}

/// The letter of the line and the words of its answer, without their numbers;
/// but a refusal has its number.
fn kind(line: &[u8], answer: &str) -> String {
    if answer == "bad" {
        return answer.to_string();
    }
    let words = match answer.split_once(' ') {
        Some((word, _)) if word != "no" => word,
        _ => answer,
    };
    format!("{} {words}", char::from(line[0]))
}
