//! Slips: lines that are near to what a tool expects. A few of them are lines
//! that it can meet.

use super::random::Random;

/// What the lines of one tool are made of.
pub struct Vocabulary {
    /// A line of the right form, of any of the tool's words.
    pub good_line: fn(&mut Random) -> String,
    /// Commands that are none.
    pub odd_words: &'static [&'static str],
    /// A line that is odd in a way of the tool's own.
    pub odd_line: fn(&mut Random) -> String,
}

/// A line, and what comes in the place of its `?`.
pub type Limit = (&'static str, &'static [&'static str]);

/// Words in the place of a number: at a limit, one over it, or no number.
const ODD_NUMBERS: [&str; 38] = [
    "0",
    "-0",
    "-1",
    "+0",
    "+1",
    "--1",
    "-",
    "1-",
    "- 1",
    "9",
    "255",
    "256",
    "00000000000000000000255",
    "65536",
    "2147483647",
    "2147483648",
    "-2147483648",
    "-2147483649",
    "-00000000000002147483648",
    "4294967295",
    "4294967296",
    "4294967303",
    "18446744073709551615",
    "18446744073709551616",
    "18446744073709551623",
    "0000000000000000000000018446744073709551615",
    "99999999999999999999",
    "340282366920938463463374607431768211463",
    "0x10",
    "1.0",
    "1e3",
    "1_000",
    "1,000",
    "ff",
    "none",
    "None",
    "\u{665}",
    "\u{ff11}",
];

/// Numbers of 64 bits and ones over it.
pub const NUMBERS_64: [&str; 5] = [
    "+1",
    "0",
    "18446744073709551615",
    "18446744073709551616",
    "18446744073709551617",
];

/// What may be left over at the end of a line.
pub const ENDS: [&str; 5] = ["", " ", " 1", "\r", "  1"];

/// A space, and what is none.
pub const SPACES: [&str; 5] = [" ", "\t", "  ", "\u{a0}", ","];

/// Bytes that get into a line.
const ODD_BYTES: [u8; 24] = [
    0, 1, b'\t', 0x0b, 0x0c, b'\r', 0x1b, b' ', b'"', b'#', b'+', b'-', b'.', b'/', b'0', b':',
    b'_', b'a', b'g', 0x7f, 0x80, 0xa0, 0xb2, 0xff,
];

/// The ways in which a line goes wrong.
#[derive(Clone, Copy)]
enum Slip {
    /// The line as it is.
    None,
    FieldMissing,
    FieldAdded,
    FieldEmpty,
    FieldsSwapped,
    SpaceInFront,
    SpaceAtEnd,
    SpaceDoubled,
    SpaceReplaced,
    OddNumber,
    OddByte,
    OddWord,
    /// A line that is odd in the tool's own way.
    OddLine,
    ReturnAtEnd,
    UpperCase,
    Comment,
    AnyBytes,
    NoBytes,
}

/// All ways, those of the greatest variety more than once.
const SLIPS: [Slip; 27] = [
    Slip::None,
    Slip::FieldMissing,
    Slip::OddNumber,
    Slip::FieldAdded,
    Slip::OddNumber,
    Slip::FieldEmpty,
    Slip::OddByte,
    Slip::FieldsSwapped,
    Slip::SpaceInFront,
    Slip::OddNumber,
    Slip::SpaceAtEnd,
    Slip::OddByte,
    Slip::SpaceDoubled,
    Slip::FieldMissing,
    Slip::SpaceReplaced,
    Slip::OddNumber,
    Slip::OddWord,
    Slip::OddLine,
    Slip::OddNumber,
    Slip::FieldMissing,
    Slip::ReturnAtEnd,
    Slip::UpperCase,
    Slip::FieldAdded,
    Slip::OddNumber,
    Slip::Comment,
    Slip::AnyBytes,
    Slip::NoBytes,
];

/// How many turns have all slips.
pub const TURNS: usize = SLIPS.len();

/// A line with a slip; the turn chooses the kind of slip.
pub fn spoilt_line(random: &mut Random, vocabulary: &Vocabulary, turn: usize) -> Vec<u8> {
    let mut line = (vocabulary.good_line)(random).into_bytes();
    let slip = SLIPS[turn % SLIPS.len()];
    match slip {
        Slip::None => {}
        Slip::FieldMissing
        | Slip::FieldAdded
        | Slip::FieldEmpty
        | Slip::FieldsSwapped
        | Slip::OddNumber
        | Slip::OddWord => line = with_other_fields(random, vocabulary, slip, &line),
        Slip::SpaceInFront => line.insert(0, b' '),
        Slip::SpaceAtEnd => line.push(b' '),
        Slip::SpaceDoubled => change_space(random, &mut line, b"  "),
        Slip::SpaceReplaced => {
            let other = random.pick(&[b"\t", b"\0", b"_", b",", b"\xa0", b"\r"]);
            change_space(random, &mut line, other);
        }
        Slip::OddByte => {
            let place = random.below(line.len() + 1);
            line.insert(place, random.pick(&ODD_BYTES));
        }
        Slip::OddLine => line = (vocabulary.odd_line)(random).into_bytes(),
        Slip::ReturnAtEnd => line.push(b'\r'),
        Slip::UpperCase => line.make_ascii_uppercase(),
        Slip::Comment => {
            let front = random.pick(&["#", "# ", "##", " #", "\t#", "\u{feff}#", "//"]);
            line.splice(0..0, front.bytes());
        }
        Slip::AnyBytes => {
            let length = random.between(1, 20);
            line = (0..length).map(|_| random.byte()).collect();
            line.retain(|byte| *byte != b'\n');
        }
        Slip::NoBytes => line = random.pick(&[&b""[..], b" ", b"  ", b"\r", b"\0"]).to_vec(),
    }
    line
}

/// Lines with numbers at the limits of their fields and one over them, and
/// with one field too many. Each turn has other ones.
pub fn limit_lines(limits: &[Limit], turn: usize) -> Vec<String> {
    let mut lines = Vec::new();
    for (line, words) in limits {
        for place in [2 * turn, 2 * turn + 1] {
            lines.push(line.replace('?', words[place % words.len()]));
        }
    }
    lines
}

/// Every command with each of its fields missing, empty, or not fitting, and
/// with something in front of it or left over.
pub fn field_lines(commands: &[&str]) -> Vec<String> {
    let mut lines = Vec::new();
    for line in commands {
        let fields: Vec<&str> = line.split(' ').collect();
        for place in 0..fields.len() {
            for other in [&[][..], &[""], &["a"], &["1:"], &["/1"], &["-1"]] {
                let (before, after) = (&fields[..place], &fields[place + 1..]);
                lines.push([before, other, after].concat().join(" "));
            }
        }
        for end in [" ", "  ", " 1", "\r", "\t"] {
            lines.push(format!("{line}{end}"));
        }
        for front in [" ", "\t", "\u{feff}"] {
            lines.push(format!("{front}{line}"));
        }
        lines.push(line.to_uppercase());
        lines.push(line[..1].to_uppercase() + &line[1..]);
    }
    lines
}

/// The line with a slip in its fields.
fn with_other_fields(
    random: &mut Random,
    vocabulary: &Vocabulary,
    slip: Slip,
    line: &[u8],
) -> Vec<u8> {
    let mut fields: Vec<&[u8]> = line.split(|byte| *byte == b' ').collect();
    let place = random.below(fields.len());
    let later = random.between(place.max(1), fields.len());
    let odd_number = random.pick(&ODD_NUMBERS).as_bytes();
    match slip {
        Slip::FieldMissing => {
            fields.remove(place);
        }
        Slip::FieldAdded => {
            let added = random.pick(&[odd_number, b"7", b"", b"none", b"send"]);
            fields.insert(later, added);
        }
        Slip::FieldEmpty => fields[place] = b"",
        Slip::FieldsSwapped => {
            let other = random.below(fields.len());
            fields.swap(place, other);
        }
        Slip::OddNumber if fields.len() > 1 => fields[place.max(1)] = odd_number,
        Slip::OddNumber => fields.push(odd_number),
        _ => fields[0] = random.pick(vocabulary.odd_words).as_bytes(),
    }
    fields.join(&b' ')
}

/// Puts other bytes in the place of one of the spaces, if there is any.
fn change_space(random: &mut Random, line: &mut Vec<u8>, other: &[u8]) {
    let spaces: Vec<usize> = (0..line.len()).filter(|at| line[*at] == b' ').collect();
    if spaces.is_empty() {
        line.extend(other);
    } else {
        let at = random.pick(&spaces);
        line.splice(at..at + 1, other.iter().copied());
    }
}
