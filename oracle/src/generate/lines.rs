//! Script lines for the line tool.

mod cases;
mod malformed;
#[cfg(test)]
mod tests;

use std::io::{self, Write};

use super::random::Random;
use super::slips::{field_lines, limit_lines};
use super::Lines;
use crate::lines::{Kind, PLACE};
use crate::script::{hex, LONGEST_LINE};
use cases::{FETCHED, LENGTHS, LONG, MOST_FEW, PATTERNS, SIZES};
use malformed::{COMMANDS, LIMITS};

/// The families of cases.
#[derive(Clone, Copy, Debug, PartialEq, Eq)]
enum Family {
    /// Both lines over a number of bytes at an edge, whatever the bytes hold.
    Sizes,
    /// A line of few places, which is offered more messages than it holds.
    Full,
    /// A turn line, whose turn is with each suite at first.
    Turns,
    /// The same script on both lines.
    Both,
    /// Messages of a length at an edge, for suites that are none too.
    Lengths,
    Fetches,
    /// More messages than one byte can count.
    Many,
    /// Script lines with slips.
    Malformed,
    /// Every command with each of its fields missing, empty, or not fitting.
    Fields,
    /// Numbers at and over the limits of their fields.
    Limits,
    /// Script lines about as long as the longest.
    Long,
}

const FAMILIES: usize = 11;

/// The order of the families; it begins again after the last. Two rounds have
/// all ways of all families.
#[rustfmt::skip]
const ROUND: [Family; 42] = {
    use Family::*;
    [
        Sizes, Lengths, Turns, Fetches, Full, Limits, Both, Sizes, Fetches, Lengths, Malformed, Full, Sizes, Fetches,
        Turns, Lengths, Many, Sizes, Long, Fetches, Both, Full, Lengths, Fields, Sizes, Turns, Limits, Fetches,
        Lengths, Full, Sizes, Both, Malformed, Fetches, Lengths, Turns, Sizes, Full, Long, Lengths, Fetches, Limits,
    ]
};

pub const KINDS: [Kind; 2] = [Kind::FirstCome, Kind::Turn];

/// The lines so far, and whose turn it is among the ways of each family; the
/// first is random.
struct Stream {
    random: Random,
    lines: Lines,
    turns: [usize; FAMILIES],
    /// How many messages were made.
    messages: usize,
}

/// Prints the lines of a seed.
pub fn generate(seed: u64, cases: u64, output: &mut impl Write) -> io::Result<()> {
    let mut stream = Stream::new(seed);
    stream.before_line();
    for case in 0..cases {
        stream.case(ROUND[(case % ROUND.len() as u64) as usize]);
        stream.lines.print(output)?;
    }
    stream.last_line();
    stream.lines.print_last(output)
}

/// The command that makes a line of the kind.
pub fn word(kind: Kind) -> &'static str {
    match kind {
        Kind::FirstCome => "first-come",
        Kind::Turn => "turn",
    }
}

impl Family {
    /// How many ways the family has.
    fn ways(self) -> usize {
        match self {
            Family::Sizes => SIZES.len(),
            Family::Full => MOST_FEW * KINDS.len(),
            Family::Turns => 8,
            Family::Both => PATTERNS.len(),
            Family::Lengths => LENGTHS.len() * KINDS.len(),
            Family::Fetches => FETCHED.len() * KINDS.len(),
            Family::Many => KINDS.len(),
            Family::Malformed => 3,
            Family::Fields => 1,
            Family::Limits => 6,
            Family::Long => LONG.len(),
        }
    }
}

impl Stream {
    fn new(seed: u64) -> Stream {
        let mut random = Random::new(seed);
        Stream {
            turns: [(); FAMILIES].map(|()| random.below(1000)),
            random,
            lines: Lines::default(),
            messages: 0,
        }
    }

    /// Script lines before a line is made.
    fn before_line(&mut self) {
        for call in [
            "offer 1 aa",
            "offer 0 ",
            "settle",
            "count",
            "fetch 0 0",
            "agreed",
        ] {
            self.lines.say(call);
            self.lines.say(format!("{call} "));
        }
        for line in [
            "",
            "# turn 1168 0",
            "Turn 1168 0",
            "turn 1168",
            "turn 1168 256",
        ] {
            self.lines.say(line);
            self.lines.say("fetch 1 4");
        }
        for line in field_lines(&COMMANDS) {
            self.lines.say(line);
        }
        for line in limit_lines(&LIMITS, 0) {
            self.lines.say(line);
        }
    }

    fn last_line(&mut self) {
        match self.random.below(4) {
            0 => self.lines.say("agreed"),
            1 => self.lines.say("fetch 0 2"),
            2 => self.lines.say("count\r"),
            _ => {
                let length = LONGEST_LINE + self.random.below(3);
                self.lines.say(vec![b'#'; length]);
            }
        }
    }

    fn case(&mut self, family: Family) {
        let way = self.turns[family as usize] % family.ways();
        self.turns[family as usize] += 1;
        self.lines.say_passed_over(&mut self.random);
        match family {
            Family::Sizes => self.sizes_case(way),
            Family::Full => self.full_case(way),
            Family::Turns => self.turns_case(way),
            Family::Both => self.both_case(way),
            Family::Lengths => self.lengths_case(way),
            Family::Fetches => self.fetches_case(way),
            Family::Many => self.many_case(way),
            Family::Malformed => self.malformed_case(way),
            Family::Fields => self.fields_case(),
            Family::Limits => self.limits_case(way),
            Family::Long => self.long_case(way),
        }
    }

    /// Makes a line over so many bytes that all hold the fill.
    fn make(&mut self, kind: Kind, bytes: usize, fill: u8) {
        let bytes = self.random.digits(bytes as u64);
        let fill = self.random.digits(u64::from(fill));
        self.lines.say(format!("{} {bytes} {fill}", word(kind)));
    }

    /// Makes a line of so many places, over bytes that hold anything.
    fn make_places(&mut self, kind: Kind, places: usize) {
        let any = self.random.below(PLACE);
        let rest = self.random.pick(&[0, 0, 1, PLACE - 1, any]);
        let fill = self.random.byte();
        let fill = self.random.pick(&[0, 1, 127, 255, fill]);
        self.make(kind, places * PLACE + rest, fill);
    }

    /// A message of so many bytes. The first byte counts the messages, so that
    /// those of one case differ.
    fn message(&mut self, length: usize) -> Vec<u8> {
        self.messages += 1;
        let mut message: Vec<u8> = (0..length).map(|_| self.random.byte()).collect();
        if let Some(first) = message.first_mut() {
            *first = self.messages as u8;
        }
        message
    }

    /// Offers a message of so many bytes for the suite.
    fn offer(&mut self, suite: u64, length: usize) {
        let message = self.message(length);
        let digits = self.random.cased(hex(&message));
        let suite = self.random.digits(suite);
        self.lines.say(format!("offer {suite} {digits}"));
    }

    /// Offers a short message for each of the suites.
    fn offer_short(&mut self, suites: &[usize]) {
        for suite in suites {
            let length = self.random.between(1, 3);
            self.offer(*suite as u64, length);
        }
    }

    fn any_suite(&mut self) -> usize {
        self.random.between(1, 8)
    }

    fn settle(&mut self, times: usize) {
        for _ in 0..times {
            self.lines.say("settle");
        }
    }

    fn fetch(&mut self, number: u64, room: usize) {
        let number = self.random.digits(number);
        let room = self.random.digits(room as u64);
        self.lines.say(format!("fetch {number} {room}"));
    }
}
