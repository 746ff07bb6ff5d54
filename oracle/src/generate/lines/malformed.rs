//! What the line tool's script lines with slips are made of.

use crate::generate::random::Random;
use crate::generate::slips::{Limit, Vocabulary, ENDS, NUMBERS_64, SPACES};
use crate::script::hex;

pub const VOCABULARY: Vocabulary = Vocabulary {
    good_line,
    odd_words: &ODD_WORDS,
    odd_line,
};

/// Commands that are none.
const ODD_WORDS: [&str; 16] = [
    "first",
    "come",
    "firstcome",
    "first_come",
    "First-come",
    "first-comes",
    "TURN",
    "turns",
    "Offer",
    "offe",
    "settled",
    "counts",
    "fetched",
    "agree",
    "ok",
    "quit",
];

const SUITES: [&str; 12] = [
    "0",
    "1",
    "8",
    "9",
    "255",
    "257",
    "-1",
    "08",
    "4294967297",
    "18446744073709551615",
    "18446744073709551616",
    "18446744073709551617",
];

const DIGITS: [&str; 12] = [
    "", "a", "aa", "AA", "aF", "ag", "Ga", "0x0a", "0:", "/0", "@0", "`0",
];

const BYTES: [&str; 12] = [
    "0",
    "1168",
    "4999999",
    "5000000",
    "5000001",
    "0005000000",
    "4294967296",
    "4294968464",
    "18446744073709551615",
    "18446744073709551616",
    "18446744073709552784",
    "1168.",
];

const FILLS: [&str; 12] = [
    "0",
    "255",
    "256",
    "000255",
    "257",
    "511",
    "65536",
    "4294967296",
    "18446744073709551615",
    "18446744073709551616",
    "-0",
    "ff",
];

const ROOMS: [&str; 12] = [
    "0",
    "1",
    "2047",
    "2048",
    "2049",
    "0002048",
    "65536",
    "4294967297",
    "18446744073709551615",
    "18446744073709551616",
    "18446744073709551617",
    "+1",
];

/// Numbers at the limits of their fields and one over them, and other words.
/// The lines that make a line come last.
pub const LIMITS: [Limit; 22] = [
    ("offer ? aa", &SUITES),
    ("offer 1 ?", &DIGITS),
    ("offer 1 aa?", &ENDS),
    ("offer?1 aa", &SPACES),
    ("offer 1?aa", &SPACES),
    ("fetch ? 2", &NUMBERS_64),
    ("fetch 1 ?", &ROOMS),
    ("fetch 2 ?", &ROOMS),
    ("fetch 1 2?", &ENDS),
    ("fetch?1 2", &SPACES),
    ("fetch 1?2", &SPACES),
    ("settle?", &ENDS),
    ("count?", &ENDS),
    ("agreed?", &ENDS),
    ("first-come 1168 0?", &ENDS),
    ("turn 1168 0?", &ENDS),
    ("turn?1168 0", &SPACES),
    ("first-come 1168?0", &SPACES),
    ("first-come ? 0", &BYTES),
    ("turn ? 0", &BYTES),
    ("first-come 1168 ?", &FILLS),
    ("turn 1168 ?", &FILLS),
];

/// A line of each command.
pub const COMMANDS: [&str; 7] = [
    "first-come 2336 7",
    "turn 2336 7",
    "offer 1 aa",
    "settle",
    "count",
    "fetch 1 4",
    "agreed",
];

/// A line of the right form, of any of the seven words.
fn good_line(random: &mut Random) -> String {
    let bytes = random.pick(&[1167, 1168, 2336, 9344]);
    match random.below(7) {
        0 => format!("first-come {bytes} {}", random.byte()),
        1 => format!("turn {bytes} {}", random.byte()),
        2 => format!("offer {} {}", random.between(1, 8), digits(random)),
        3 => "settle".to_string(),
        4 => "count".to_string(),
        5 => format!("fetch {} {}", random.below(3), random.below(6)),
        _ => "agreed".to_string(),
    }
}

/// The digits of a message of a few bytes.
fn digits(random: &mut Random) -> String {
    let length = random.between(1, 4);
    let bytes: Vec<u8> = (0..length).map(|_| random.byte()).collect();
    hex(&bytes)
}

/// An offer whose digits are odd in number, or not all of them digits, or of
/// upper case.
fn odd_line(random: &mut Random) -> String {
    let mut digits = digits(random);
    let place = random.below(digits.len());
    match random.below(4) {
        0 => digits.truncate(digits.len() - 1),
        1 => digits = digits.to_uppercase(),
        2 => digits.insert(place, '0'),
        _ => {
            let other = ["g", "G", "x", "-", "@", "`", "/", ":", "\t", "\r", "\0"];
            digits.replace_range(place..place + 1, random.pick(&other));
        }
    }
    format!("offer 1 {digits}")
}
