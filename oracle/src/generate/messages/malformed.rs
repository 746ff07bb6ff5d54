//! What the message tool's lines with slips are made of.

use crate::generate::random::Random;
use crate::generate::slips::{Limit, Vocabulary, ENDS, NUMBERS_64, SPACES};
use crate::script::hex;
use crate::settings::SettingKind;

pub const VOCABULARY: Vocabulary = Vocabulary {
    good_line,
    odd_words: &ODD_WORDS,
    odd_line,
};

const NUMBERS_8: [&str; 5] = ["+1", "0", "255", "256", "257"];
const NUMBERS_32: [&str; 5] = ["+1", "0", "4294967295", "4294967296", "4294967297"];
const SIGNED_NUMBERS: [&str; 10] = [
    "-0",
    "2147483647",
    "2147483648",
    "4294967295",
    "-2147483648",
    "-2147483649",
    "-4294967295",
    "-4294967296",
    "9223372036854775808",
    "-",
];
const LINKS: [&str; 8] = [
    "none",
    "None",
    "non",
    "nonee",
    "-1",
    "0",
    "18446744073709551615",
    "18446744073709551616",
];
const SUITES: [&str; 11] = [
    "0",
    "1",
    "8",
    "9",
    "255",
    "256",
    "257",
    "4294967297",
    "18446744073709551608",
    "18446744073709551616",
    "18446744073709551617",
];

const SETTINGS: [&str; 6] = ["colour", "color", "Colour", "link", "links", "exact"];
const SUMMARIES: [&str; 6] = ["exact", "Exact", "exac", "bloom", "blooms", "link"];

/// Numbers at the limits of their fields and one over them, and other words.
pub const LIMITS: [Limit; 31] = [
    ("session ? 0 7", &SUITES),
    ("session 1 ? 7", &NUMBERS_32),
    ("session 1 0 ?", &NUMBERS_64),
    ("session 1 0 7 ? 8", &NUMBERS_64),
    ("session 1 0 7?", &ENDS),
    ("session 1 0?", &ENDS),
    ("move ? 1 0", &NUMBERS_8),
    ("move 1 ? 0", &NUMBERS_8),
    ("move 1 1 ?", &NUMBERS_32),
    ("move 1 1 0?", &ENDS),
    ("read ?", &NUMBERS_64),
    ("read 7?", &ENDS),
    ("write ? 0 0 0", &NUMBERS_64),
    ("write ? 0", &NUMBERS_64),
    ("write 7 ? 0 0", &SIGNED_NUMBERS),
    ("write 7 0 ? 0", &SIGNED_NUMBERS),
    ("write 7 0 0 ?", &SIGNED_NUMBERS),
    ("write 7 0 0 0?", &ENDS),
    ("write 7 ?", &LINKS),
    ("write 7 0?", &ENDS),
    ("message 00?", &ENDS),
    ("pack ?", &NUMBERS_64),
    ("names 00 ?", &NUMBERS_64),
    ("names 00 7?", &ENDS),
    ("hash ? 1", &NUMBERS_32),
    ("hash 1 ?", &NUMBERS_64),
    ("hash 1 2?", &ENDS),
    ("hash 1?2", &SPACES),
    ("send?", &ENDS),
    ("kind ? bloom", &SETTINGS),
    ("kind link ?", &SUMMARIES),
];

/// Commands that are none.
const ODD_WORDS: [&str; 16] = [
    "help",
    "kinds",
    "Kind",
    "SESSION",
    "sessio",
    "moves",
    "mov",
    "reads",
    "Write",
    "sendmessage",
    "Message",
    "package",
    "name",
    "hashes",
    "quit",
    "fault",
];

/// Kinds that are none.
const ODD_KINDS: [&str; 10] = [
    "color", "Colour", "LINK", "links", "lin", "exact", "bloom", "Bloom", "exactly", "none",
];

/// A line of the right form, of any of the ten words.
fn good_line(random: &mut Random) -> String {
    match random.below(10) {
        0 => format!(
            "kind {} {}",
            random.pick(&["colour", "link"]),
            random.pick(&["exact", "bloom"])
        ),
        1 => {
            let count = random.between(1, 3);
            let nodes = random.different_nodes(count);
            let (suites, stamp) = (random.between(1, 8), random.stamp());
            format!("session {suites} {stamp} {}", joined(&nodes))
        }
        2 => {
            let (suite, slot) = (random.between(1, 8), random.between(1, 4));
            format!("move {suite} {slot} {}", random.stamp())
        }
        3 => format!("read {}", random.node()),
        4 => {
            let kind = random.pick(&[SettingKind::Colour, SettingKind::Link]);
            let setting = random.setting(kind);
            format!("write {} {}", random.node(), random.setting_words(setting))
        }
        5 => "send".to_string(),
        6 => format!("message {}", short_hex(random)),
        7 => {
            let count = random.between(0, 3);
            let nodes = random.different_nodes(count);
            format!("pack {}", joined(&nodes)).trim_end().to_string()
        }
        8 => format!("names {} {}", short_hex(random), random.node()),
        _ => format!("hash {} {}", random.stamp(), random.node()),
    }
}

/// A `kind` line of a kind that is none, or of the two in the wrong order.
fn odd_line(random: &mut Random) -> String {
    let mut words = [
        random.pick(&["colour", "link"]),
        random.pick(&["exact", "bloom"]),
    ];
    words[random.below(2)] = random.pick(&ODD_KINDS);
    format!("kind {} {}", words[0], words[1])
}

fn joined(numbers: &[u64]) -> String {
    let words: Vec<String> = numbers.iter().map(u64::to_string).collect();
    words.join(" ")
}

/// A few bytes in hexadecimal, now and then as many as the Bloom summary has.
fn short_hex(random: &mut Random) -> String {
    let length = random.pick(&[0, 1, 2, 10, 12, 64]);
    let bytes: Vec<u8> = (0..length).map(|_| random.byte()).collect();
    hex(&bytes)
}
