//! What the session tool's script lines with slips are made of.

use super::making::{combination, COMBINATIONS};
use crate::generate::random::Random;
use crate::generate::scenes::Long;
use crate::generate::slips::{Limit, Vocabulary, ENDS, NUMBERS_64, SPACES};
use crate::generate::spellings::{LEVELS, LINKS, NUMBERS};

pub const VOCABULARY: Vocabulary = Vocabulary {
    good_line,
    odd_words: &ODD_WORDS,
    odd_line,
};

/// Words that ask for nothing.
const ODD_WORDS: [&str; 20] = [
    "Session", "sessions", "sessio", "make", "new", "Begin", "begins", "beginn", "reads", "writes",
    "COMMIT", "abort", "collects", "settled", "takes", "B", "N", "ok", "set", "---",
];

const PLACES: [&str; 16] = [
    "0",
    "1",
    "4095",
    "4096",
    "4097",
    "5000",
    "5001",
    "0005000",
    "00000000000000000000003",
    "65537",
    "4294967297",
    "18446744073709551615",
    "18446744073709551616",
    "18446744073709551617",
    "-1",
    "3x",
];

/// Settings of both kinds, and what is none of one kind or of both.
const VALUES: [&str; 32] = [
    "none",
    "0",
    "1 2 3",
    "7",
    "none none",
    "1 2",
    "1 2 3 4",
    "none 1 2",
    "1 2 none",
    "-1",
    "-0",
    "-0 -0 -0",
    "2147483647 -2147483648 0",
    "2147483648 0 0",
    "0 0 -2147483649",
    "2147483648",
    "18446744073709551615",
    "18446744073709551616",
    "18446744073709551615 0 0",
    "00 000 -00",
    "",
    " ",
    "  ",
    "none ",
    " none",
    "1 2 3 ",
    "1 2  3",
    "1  2 3",
    "7 ",
    "None",
    "1 2 +3",
    "none\r",
];

/// Numbers at the limits of their fields and one over them, and other words.
pub const LIMITS: [Limit; 36] = [
    ("begin ? 1", &NUMBERS),
    ("begin 1 ?", &NUMBERS),
    ("begin 1 1?", &ENDS),
    ("begin?1 1", &SPACES),
    ("begin 1?1", &SPACES),
    ("read ? 1 7", &NUMBERS),
    ("read 1 ? 7", &NUMBERS),
    ("read 1 1 ?", &NUMBERS_64),
    ("read 1 1 7?", &ENDS),
    ("read 1 1?7", &SPACES),
    ("write ? 1 7 0 0 0", &NUMBERS),
    ("write 1 ? 7 none", &NUMBERS),
    ("write 1 1 ? 0 0 0", &NUMBERS_64),
    ("write 1 1 ? 7", &NUMBERS_64),
    ("write 1 1 7 0 0 0?", &ENDS),
    ("write 1 1 7 none?", &ENDS),
    ("write 1 1 7 0?0 0", &SPACES),
    ("write 1 1 7?none", &SPACES),
    ("write 1 1 7 ?", &VALUES),
    ("write 1 1 7 ?", &LINKS),
    ("write 1 1 7 0 ? 0", &LEVELS),
    ("write 1 1 7?", &ENDS),
    ("commit ? 1", &NUMBERS),
    ("commit 1 ?", &NUMBERS),
    ("commit 1 9?", &ENDS),
    ("abandon ? 1", &NUMBERS),
    ("abandon 1 ?", &NUMBERS),
    ("abandon 9 1?", &ENDS),
    ("collect ? 1", &NUMBERS),
    ("collect 1 ?", &NUMBERS),
    ("collect 1 1?", &ENDS),
    ("settle?", &ENDS),
    ("settle?", &SPACES),
    ("take ?", &NUMBERS),
    ("take 1?", &ENDS),
    ("take?1", &SPACES),
];

/// The same for lines that make a session, or do not.
pub const MAKING_LIMITS: [Limit; 14] = [
    ("session ? exact turn 3 2 7 9", &SETTINGS),
    ("session colour ? turn 3 2 7 9", &SUMMARIES),
    ("session link bloom ? 3 2 7 9", &LINES),
    ("session link exact turn ? 2 7 9", &PLACES),
    ("session colour bloom first-come ? 2 7 9", &PLACES),
    ("session link exact first-come 3 ? 7 9", &NUMBERS),
    ("session colour exact turn 3 ?", &NUMBERS),
    ("session colour exact turn 0 ? 7 7", &NUMBERS),
    ("session colour bloom turn 3 2 ?", &NUMBERS_64),
    ("session link exact turn 3 2 7 ? 7", &NUMBERS_64),
    ("session colour exact turn 3 2 7 9?", &ENDS),
    ("session?colour exact turn 3 2 7", &SPACES),
    ("session colour exact?turn 3 2 7", &SPACES),
    ("session colour exact turn 3 2?7", &SPACES),
];

const SETTINGS: [&str; 10] = [
    "colour", "link", "Colour", "COLOUR", "color", "colours", "links", "exact", "none", "",
];

const SUMMARIES: [&str; 10] = [
    "exact",
    "bloom",
    "Exact",
    "Bloom",
    "exact-list",
    "exacts",
    "bloom-filter",
    "turn",
    "link",
    "",
];

const LINES: [&str; 10] = [
    "first-come",
    "turn",
    "first_come",
    "firstcome",
    "first",
    "First-come",
    "Turn",
    "turns",
    "exact",
    "",
];

/// A line of each command but `session`, with a write of either kind.
pub const CALLS: [&str; 9] = [
    "begin 1 1",
    "read 1 1 7",
    "write 1 1 7 0 -1 1",
    "write 1 1 7 none",
    "commit 1 1",
    "abandon 1 1",
    "collect 1 1",
    "settle",
    "take 1",
];

/// Lines that make a session.
pub const MAKINGS: [&str; 2] = [
    "session colour bloom first-come 3 2 7 9",
    "session link exact turn 3 1 7",
];

/// Long lines: the front, what fills them up, and the end.
pub const LONG: [Long; 9] = [
    ("write ", b'0', "1 1 7 1 2 3"),
    ("write 1 1 7 1 2 -", b'0', "3"),
    ("write 1 1 7 ", b'0', "9"),
    ("begin 1 ", b'0', "1"),
    ("read 1 1 ", b'9', ""),
    ("settle", b' ', ""),
    ("", 0xff, ""),
    ("take ", b'0', "9"),
    ("#", b'x', ""),
];

/// A line of any word that can be read, if its value is of the session's kind.
fn good_line(random: &mut Random) -> String {
    let (suite, slot) = (random.between(1, 8), random.between(1, 4));
    match random.below(10) {
        0 => good_making(random),
        1 => format!("begin {suite} {slot}"),
        2 => format!("read {suite} {slot} {}", random.node()),
        3 => format!("write {suite} {slot} {} 1 -2 3", random.node()),
        4 => format!("write {suite} {slot} {} none", random.node()),
        5 => format!("commit {suite} {slot}"),
        6 => format!("abandon {suite} {slot}"),
        7 => format!("collect {suite} {slot}"),
        8 => "settle".to_string(),
        _ => format!("take {suite}"),
    }
}

fn good_making(random: &mut Random) -> String {
    let kinds = combination(random.below(COMBINATIONS));
    let (places, suites) = (random.below(50), random.below(10));
    format!(
        "session {kinds} {places} {suites} {}",
        random.between(10, 99)
    )
}

/// A write of a value that may be none, or not of the session's kind.
fn odd_line(random: &mut Random) -> String {
    let value = random.pick(&[&VALUES[..], &LINKS]);
    format!("write 1 1 7 {}", random.pick(value))
}

/// A line that makes no session, as something is wrong with one of its fields.
pub fn bad_making(random: &mut Random) -> String {
    let line = good_making(random);
    let end = random.pick(&[" ", " x", "\r", " -1", " 18446744073709551616", "  7"]);
    line + end
}
