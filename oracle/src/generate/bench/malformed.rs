//! What the bench's lines with slips are made of.

use crate::generate::random::Random;
use crate::generate::scenes::Long;
use crate::generate::slips::{Limit, Vocabulary, ENDS, NUMBERS_64, SPACES};
use crate::generate::spellings::{LEVELS, NUMBERS};

pub const VOCABULARY: Vocabulary = Vocabulary {
    good_line,
    odd_words: &ODD_WORDS,
    odd_line,
};

/// Letters and words that ask for nothing.
const ODD_WORDS: [&str; 20] = [
    "n", "b", "r", "w", "c", "a", "k", "s", "t", "NN", "BB", "SS", "M", "X", "begin", "SETTLE",
    "ok", "bad", "--", "----",
];

/// Numbers at the limits of their fields and one over them, and other words.
pub const LIMITS: [Limit; 29] = [
    ("B ? 1", &NUMBERS),
    ("B 1 ?", &NUMBERS),
    ("B 1 1?", &ENDS),
    ("B?1 1", &SPACES),
    ("B 1?1", &SPACES),
    ("R ? 1 7", &NUMBERS),
    ("R 1 ? 7", &NUMBERS),
    ("R 1 1 ?", &NUMBERS_64),
    ("R 1 1 7?", &ENDS),
    ("R 1 1?7", &SPACES),
    ("W ? 1 7 0 0 0", &NUMBERS),
    ("W 1 ? 7 0 0 0", &NUMBERS),
    ("W 1 1 ? 0 0 0", &NUMBERS_64),
    ("W 1 1 7 0 0 0?", &ENDS),
    ("W 1 1 7 0?0 0", &SPACES),
    ("C ? 1", &NUMBERS),
    ("C 1 ?", &NUMBERS),
    ("C 1 9?", &ENDS),
    ("A ? 1", &NUMBERS),
    ("A 1 ?", &NUMBERS),
    ("A 9 1?", &ENDS),
    ("K ? 1", &NUMBERS),
    ("K 1 ?", &NUMBERS),
    ("K 1 1?", &ENDS),
    ("S?", &ENDS),
    ("T ?", &NUMBERS),
    ("T 1?", &ENDS),
    ("T?1", &SPACES),
    ("N ? 7", &NUMBERS),
];

/// The same for lines that make no session.
pub const MAKING_LIMITS: [Limit; 7] = [
    ("N ? 7 7", &NUMBERS),
    ("N ?", &NUMBERS),
    ("N 9 ?", &NUMBERS_64),
    ("N 1 7 ? 7", &NUMBERS_64),
    ("N 1 7 7?", &ENDS),
    ("N?1 7 7", &SPACES),
    ("N 1 7?7", &SPACES),
];

/// A line of each letter but `N`.
pub const CALLS: [&str; 8] = [
    "B 1 1",
    "R 1 1 7",
    "W 1 1 7 0 -1 1",
    "C 1 1",
    "A 1 1",
    "K 1 1",
    "S",
    "T 1",
];

/// Long lines: the front, what fills them up, and the end.
pub const LONG: [Long; 7] = [
    ("W ", b'0', "1 1 7 1 2 3"),
    ("W 1 1 7 1 2 -", b'0', "3"),
    ("B 1 ", b'0', "1"),
    ("R 1 1 ", b'9', ""),
    ("S", b' ', ""),
    ("", 0xff, ""),
    ("T ", b'0', "9"),
];

/// A line of any letter that can be read.
fn good_line(random: &mut Random) -> String {
    let (suite, slot) = (random.between(1, 8), random.between(1, 4));
    match random.below(9) {
        0 => format!("N {suite} {} {}", random.below(10), random.between(10, 99)),
        1 => format!("B {suite} {slot}"),
        2 => format!("R {suite} {slot} {}", random.node()),
        3 => format!("W {suite} {slot} {} 1 -2 3", random.node()),
        4 => format!("C {suite} {slot}"),
        5 => format!("A {suite} {slot}"),
        6 => format!("K {suite} {slot}"),
        7 => "S".to_string(),
        _ => format!("T {suite}"),
    }
}

/// A write of a colour that may be none, or a line of another case.
fn odd_line(random: &mut Random) -> String {
    if random.one_in(2) {
        return good_line(random).to_lowercase();
    }
    let mut levels = || random.pick(&LEVELS);
    format!("W 1 1 7 {} {} {}", levels(), levels(), levels())
}
