//! Lines for the message tool.

mod damage;
mod malformed;

use std::io::{self, Write};

use super::random::Random;
use super::slips::{limit_lines, spoilt_line};
use super::{padded, Lines};
use crate::message::{compose, Format, Move, Session};
use crate::script::{hex, LONGEST_LINE};
use crate::settings::{Setting, SettingKind};
use crate::summaries::SummaryKind;
use damage::{other_summary, Damage, DAMAGES};
use malformed::{LIMITS, VOCABULARY};

/// The families of cases.
#[derive(Clone, Copy)]
enum Family {
    /// A message in hexadecimal, mostly spoilt.
    Message,
    /// A move described line by line, and sent.
    Move,
    Names,
    Pack,
    Hash,
    /// Lines with slips.
    Malformed,
    /// Numbers at and over the limits of their fields.
    Limits,
    /// Sessions at and over the limits.
    Session,
    /// Lines at and over the longest length.
    Long,
}

const FAMILIES: usize = 9;

/// The order of the families; it begins again after the last.
#[rustfmt::skip]
const ROUND: [Family; 40] = {
    use Family::*;
    [
        Message, Move, Malformed, Message, Names, Message, Move, Message, Pack, Move,
        Message, Session, Message, Move, Malformed, Message, Hash, Message, Move, Names,
        Message, Move, Limits, Message, Message, Move, Message, Pack, Malformed, Message,
        Move, Message, Names, Message, Move, Message, Malformed, Long, Move, Message,
    ]
};

/// The ways to describe and send a move.
#[derive(Clone, Copy)]
enum MoveCase {
    Whole,
    ManyReads,
    ManyWrites,
    NoWrites,
    BadSuite,
    BadSlot,
    AllBad,
    HighSuite,
    HighSnapshot,
    UnknownNode,
    KindBetween,
    SessionBetween,
    MoveBetween,
    OtherLinesBetween,
    SentTwice,
    NoMove,
}

const MOVE_CASES: [MoveCase; 19] = [
    MoveCase::Whole,
    MoveCase::ManyReads,
    MoveCase::NoWrites,
    MoveCase::ManyWrites,
    MoveCase::BadSuite,
    MoveCase::Whole,
    MoveCase::BadSlot,
    MoveCase::AllBad,
    MoveCase::HighSuite,
    MoveCase::ManyReads,
    MoveCase::HighSnapshot,
    MoveCase::UnknownNode,
    MoveCase::ManyWrites,
    MoveCase::KindBetween,
    MoveCase::SessionBetween,
    MoveCase::MoveBetween,
    MoveCase::OtherLinesBetween,
    MoveCase::SentTwice,
    MoveCase::NoMove,
];

/// The lines so far, and what the tool knows after them.
struct Stream {
    random: Random,
    lines: Lines,
    format: Format,
    session: Session,
    /// Whether a line may have changed the format or the session unnoticed.
    unsure: bool,
    /// Whose turn it is among the ways of each family; the first is random.
    turns: [usize; FAMILIES],
}

/// Prints the lines of a seed.
pub fn generate(seed: u64, cases: u64, output: &mut impl Write) -> io::Result<()> {
    let mut stream = Stream::new(seed);
    stream.before_session();
    for case in 0..cases {
        stream.case(ROUND[(case % ROUND.len() as u64) as usize]);
        stream.lines.print(output)?;
    }
    stream.last_line();
    stream.lines.print_last(output)
}

impl Stream {
    fn new(seed: u64) -> Stream {
        let mut random = Random::new(seed);
        Stream {
            turns: [(); FAMILIES].map(|()| random.below(1000)),
            random,
            lines: Lines::default(),
            format: Format {
                setting: SettingKind::Colour,
                summary: SummaryKind::Exact,
            },
            session: Session {
                suites: 1,
                stamp: 0,
                nodes: vec![1],
            },
            unsure: false,
        }
    }

    /// Lines before the first session, and then a session.
    fn before_session(&mut self) {
        self.lines.say("pack 7 9");
        self.lines.say("write 7 1 -1 0");
        for bad in ["0 0 1", "9 0 1", "1 0", "1 0 5 5", "1 4294967296 5", "x"] {
            let node = self.random.node();
            self.lines.say("send");
            self.lines.say("message ");
            self.lines.say(format!("read {node}"));
            self.lines.say(format!("session {bad}"));
            self.say_message_of_a_move();
            self.lines.say("move 1 1 0");
            self.lines.say(format!("read {node}"));
            self.lines.say("send");
            self.change_kind(None);
        }
        let described = self.good_move(None);
        self.describe(&described);
        self.lines.say("send");
        self.change_session(None);
        self.lines.say("send");
        self.lines.say("send");
    }

    fn last_line(&mut self) {
        match self.random.below(5) {
            0 => self.lines.say("send"),
            1 => self.lines.say("hash 4294967295 18446744073709551615"),
            2 => self.say_message_of_a_move(),
            3 => self.lines.say("pack 1\r"),
            _ => {
                let length = LONGEST_LINE + self.random.below(3);
                self.lines.say(vec![b'x'; length]);
            }
        }
    }

    fn case(&mut self, family: Family) {
        let turn = self.turns[family as usize];
        self.turns[family as usize] += 1;
        if self.unsure || !self.random.one_in(4) {
            self.change_kind(None);
        }
        if self.unsure || self.random.one_in(3) {
            self.change_session(None);
        }
        self.unsure = false;
        self.lines.say_passed_over(&mut self.random);
        match family {
            Family::Message => self.message_case(turn),
            Family::Move => self.move_case(turn),
            Family::Names => self.names_case(turn),
            Family::Pack => self.pack_case(turn),
            Family::Hash => self.hash_case(),
            Family::Malformed => self.malformed_case(turn),
            Family::Limits => self.limits_case(turn),
            Family::Session => self.session_case(),
            Family::Long => self.long_case(turn),
        }
    }

    /// Chooses the kinds: this kind of setting, or any.
    fn change_kind(&mut self, setting: Option<SettingKind>) {
        let any = self.random.pick(&[SettingKind::Colour, SettingKind::Link]);
        let setting = setting.unwrap_or(any);
        let summary = self.random.pick(&[SummaryKind::Exact, SummaryKind::Bloom]);
        self.format = Format { setting, summary };
        self.say_kind();
    }

    /// The `kind` line of the format.
    fn say_kind(&mut self) {
        let setting = match self.format.setting {
            SettingKind::Colour => "colour",
            SettingKind::Link => "link",
        };
        let summary = match self.format.summary {
            SummaryKind::Exact => "exact",
            SummaryKind::Bloom => "bloom",
        };
        self.lines.say(format!("kind {setting} {summary}"));
    }

    /// Begins a session of so many nodes, or of any number.
    fn change_session(&mut self, count: Option<usize>) {
        let any = match self.random.below(12) {
            0..=8 => self.random.between(1, 5),
            9 => self.random.between(6, 20),
            10 => self.random.between(21, 63),
            _ => self.random.pick(&[1, 64]),
        };
        self.session = Session {
            suites: self.random.between(1, 8) as u8,
            stamp: self.random.stamp(),
            nodes: self.random.different_nodes(count.unwrap_or(any)),
        };
        let nodes = self.session.nodes.clone();
        let line = self.session_line(u64::from(self.session.suites), &nodes);
        self.lines.say(line);
    }

    fn session_line(&mut self, suites: u64, nodes: &[u64]) -> String {
        let suites = self.random.digits(suites);
        let stamp = self.random.digits(u64::from(self.session.stamp));
        format!("session {suites} {stamp}{}", self.spaced(nodes))
    }

    /// The numbers, each after a space.
    fn spaced(&mut self, numbers: &[u64]) -> String {
        numbers
            .iter()
            .map(|number| format!(" {}", self.random.digits(*number)))
            .collect()
    }

    /// A node of the session, or now and then any.
    fn likely_node(&mut self) -> u64 {
        if self.random.one_in(4) {
            self.random.node()
        } else {
            self.random.pick(&self.session.nodes)
        }
    }

    fn setting(&mut self) -> Setting {
        self.random.setting(self.format.setting)
    }

    /// A move whose message has no fault in the session, with so many writes,
    /// if the session has the nodes for them.
    fn good_move(&mut self, writes: Option<usize>) -> Move {
        let any = match self.random.below(6) {
            0..=3 => self.random.between(1, 3),
            4 => self.random.between(4, 15),
            _ => 16,
        };
        let mut written = self.session.nodes.clone();
        self.random.shuffle(&mut written);
        written.truncate(writes.unwrap_or(any));
        let reads = match self.random.below(8) {
            0..=5 => self.random.below(5),
            6 => self.random.below(32),
            _ => 32,
        };
        let mut read: Vec<u64> = Vec::new();
        while read.len() < reads {
            let node = self.likely_node();
            let node = if read.contains(&node) {
                self.random.other_node(&read)
            } else {
                node
            };
            read.push(node);
        }
        Move {
            suite: self.random.between(1, usize::from(self.session.suites)) as u8,
            slot: self.random.between(1, 4) as u8,
            snapshot: self.random.stamp().min(self.session.stamp),
            reads: read,
            writes: written
                .into_iter()
                .map(|node| (node, self.setting()))
                .collect(),
        }
    }

    fn message_of(&self, described: &Move) -> Vec<u8> {
        compose(self.format, described).expect("a good move has a message")
    }

    fn say_message_of_a_move(&mut self) {
        let described = self.good_move(Some(1));
        let bytes = self.message_of(&described);
        self.say_message(&bytes);
    }

    /// A `message` line, its digits of either case.
    fn say_message(&mut self, bytes: &[u8]) {
        let digits = self.random.cased(hex(bytes));
        self.lines.say(format!("message {digits}"));
    }

    fn message_case(&mut self, turn: usize) {
        let way = turn % (DAMAGES.len() + 3);
        match DAMAGES.get(way) {
            Some(damage) => self.say_spoilt(*damage),
            None if way == DAMAGES.len() => {
                let described = self.good_move(None);
                let bytes = self.message_of(&described);
                self.say_message(&bytes);
            }
            None if way == DAMAGES.len() + 1 => {
                let described = self.good_move(None);
                let bytes = self.message_of(&described);
                self.change_kind(None);
                self.say_message(&bytes);
            }
            None => self.say_bad_digits(),
        }
    }

    /// A message with this damage, now and then after the whole one.
    fn say_spoilt(&mut self, damage: Damage) {
        if damage.needs_links() {
            self.change_kind(Some(SettingKind::Link));
        }
        let writes = damage.writes(&mut self.random);
        if writes > Some(self.session.nodes.len()) {
            self.change_session(writes);
        }
        let described = self.good_move(writes);
        let whole = self.message_of(&described);
        if self.random.one_in(8) {
            self.say_message(&whole);
        }
        for time in 0..damage.times() {
            let (random, session) = (&mut self.random, &self.session);
            let spoilt = damage.apply(time, random, self.format, session, &whole);
            self.say_message(&spoilt);
        }
    }

    /// A message whose digits are odd in number or not all of them digits.
    fn say_bad_digits(&mut self) {
        for way in 0..4 {
            let described = self.good_move(Some(1));
            let bytes = self.message_of(&described);
            let mut digits = self.random.cased(hex(&bytes)).into_bytes();
            let place = self.random.below(digits.len());
            match way {
                0 => digits.truncate(self.random.below(20) * 2 + 1),
                1 => {
                    digits.pop();
                }
                2 => digits[place] = self.random.pick(b"gGxz-+.@`/: \t\r\x00\x80\xff"),
                _ => digits.truncate(place),
            }
            let mut line = b"message ".to_vec();
            line.extend(digits);
            self.lines.say(line);
        }
    }

    /// Describes a move: its reads and writes in their order, some of them more
    /// than once.
    fn describe(&mut self, described: &Move) {
        self.lines.say(format!(
            "move {} {} {}",
            described.suite, described.slot, described.snapshot
        ));
        let (mut reads, mut writes) = (0, 0);
        while reads < described.reads.len() || writes < described.writes.len() {
            if reads < described.reads.len() && self.random.one_in(2) {
                self.say_read(described.reads[reads]);
                reads += 1;
            } else if writes < described.writes.len() {
                let (node, setting) = described.writes[writes];
                if self.random.one_in(8) {
                    let replaced = self.setting();
                    self.say_write(node, replaced);
                }
                self.say_write(node, setting);
                writes += 1;
            }
            if reads > 0 && self.random.one_in(10) {
                let again = self.random.pick(&described.reads[..reads]);
                self.say_read(again);
            }
            if writes > 0 && self.random.one_in(12) {
                let (again, setting) = self.random.pick(&described.writes[..writes]);
                self.say_write(again, setting);
            }
        }
    }

    fn say_read(&mut self, node: u64) {
        let node = self.random.digits(node);
        self.lines.say(format!("read {node}"));
    }

    fn say_write(&mut self, node: u64, setting: Setting) {
        let node = self.random.digits(node);
        let setting = self.random.setting_words(setting);
        self.lines.say(format!("write {node} {setting}"));
    }

    /// A `write` line of any setting.
    fn say_any_write(&mut self, node: u64) {
        let setting = self.setting();
        self.say_write(node, setting);
    }

    fn move_case(&mut self, turn: usize) {
        let case = MOVE_CASES[turn % MOVE_CASES.len()];
        let mut described = self.good_move(None);
        match case {
            MoveCase::ManyReads => return self.many_reads(31 + turn % 5),
            MoveCase::ManyWrites => return self.many_writes(15 + turn % 5),
            MoveCase::NoMove => return self.no_move(),
            MoveCase::NoWrites => described.writes.clear(),
            MoveCase::BadSuite => described.suite = self.random.pick(&[0, 9, 10, 255]),
            MoveCase::BadSlot => described.slot = self.random.pick(&[0, 5, 6, 255]),
            MoveCase::AllBad => {
                described.suite = self.random.pick(&[0, 9, 255]);
                described.slot = self.random.pick(&[0, 5, 255]);
                described.writes.clear();
            }
            MoveCase::HighSuite => described.suite = (self.session.suites + 1).min(8),
            MoveCase::HighSnapshot => {
                described.snapshot = self.session.stamp.saturating_add(1);
            }
            MoveCase::UnknownNode => {
                let write = self.random.below(described.writes.len());
                described.writes[write].0 = self.random.other_node(&self.session.nodes);
            }
            _ => {}
        }
        self.describe(&described);
        match case {
            MoveCase::KindBetween => {
                self.change_kind(None);
                let node = self.random.node();
                self.say_read(node);
                self.say_any_write(node);
            }
            MoveCase::SessionBetween => self.change_session(None),
            MoveCase::MoveBetween => {
                let other = self.good_move(None);
                self.describe(&other);
            }
            MoveCase::OtherLinesBetween => self.other_lines(),
            _ => {}
        }
        self.lines.say("send");
        match case {
            MoveCase::NoWrites | MoveCase::OtherLinesBetween => {
                let node = self.likely_node();
                self.say_any_write(node);
                self.lines.say("send");
            }
            MoveCase::BadSuite | MoveCase::BadSlot => {
                self.lines.say("send");
                self.no_move();
            }
            MoveCase::AllBad => {
                for (suite, slot) in [(9, 5), (9, 1), (0, 1), (8, 5), (1, 0), (8, 4)] {
                    self.lines.say(format!("move {suite} {slot} 0"));
                    self.lines.say("send");
                }
            }
            MoveCase::SentTwice => self.lines.say("send"),
            _ => {}
        }
    }

    /// Reads near the limit or over it.
    fn many_reads(&mut self, count: usize) {
        let described = self.good_move(Some(1));
        self.lines
            .say(format!("move {} {} 0", described.suite, described.slot));
        let nodes = self.random.different_nodes(count);
        for node in &nodes {
            self.say_read(*node);
        }
        self.say_read(nodes[0]);
        self.say_read(nodes[31.min(count - 1)]);
        let (node, setting) = described.writes[0];
        self.say_write(node, setting);
        self.lines.say("send");
    }

    /// Writes near the limit or over it.
    fn many_writes(&mut self, count: usize) {
        let nodes = self.random.between(count, 24);
        self.change_session(Some(nodes));
        let described = self.good_move(Some(count));
        self.lines
            .say(format!("move {} {} 0", described.suite, described.slot));
        for (node, setting) in &described.writes {
            self.say_write(*node, *setting);
        }
        self.say_any_write(described.writes[0].0);
        self.say_any_write(described.writes[15.min(count - 1)].0);
        self.lines.say("send");
    }

    /// Lines that need a move, after it was forgotten.
    fn no_move(&mut self) {
        self.change_kind(None);
        let node = self.likely_node();
        self.lines.say("send");
        self.say_read(node);
        self.say_any_write(node);
    }

    /// Lines that do not touch a description.
    fn other_lines(&mut self) {
        self.lines.say("hash 1 2");
        self.lines.say("pack 1 2");
        self.say_message_of_a_move();
        self.lines.say("message 00");
        self.lines.say("names 00 7");
        self.lines.say("send now");
        self.lines.say("move 1 1");
        self.lines.say("move 256 1 0");
        self.lines.say("session 0 0 1");
        self.lines.say("kind colour");
        self.lines.say("read -1");
        self.lines.say("write 5");
    }

    fn names_case(&mut self, turn: usize) {
        let kind = self.format.summary;
        let count = self.random.pick(&[0, 1, 2, 5, 31, 32]);
        let numbers = self.random.different_nodes(count);
        let packed = kind.pack(&numbers).expect("at most 32 numbers");
        let absent = self.random.node();
        match turn % 7 {
            0 | 1 => {
                let present = numbers.first().copied().unwrap_or(0);
                let last = numbers.last().copied().unwrap_or(0);
                for node in [present, last, absent] {
                    self.say_names(&packed, node);
                }
            }
            2 => {
                let mut spoilt = packed;
                let place = self.random.below(spoilt.len());
                spoilt[place] ^= self.random.byte();
                for node in numbers.iter().take(2) {
                    self.say_names(&spoilt, *node);
                }
                spoilt[0] = spoilt[0].wrapping_sub(1);
                self.say_names(&spoilt, numbers.last().copied().unwrap_or(absent));
            }
            3 | 4 => {
                let nodes = self.random.different_nodes(3);
                let summary = other_summary(&mut self.random, kind, &nodes);
                for node in nodes {
                    self.say_names(&summary, node);
                }
                self.say_names(&summary, 0);
            }
            5 => self.names_last(absent),
            _ => {
                let width = kind.width();
                let widths = [0, 1, 64, 257, width - 1, width, width + 1, 128, 512];
                for _ in 0..3 {
                    let width = self.random.pick(&widths);
                    let bytes: Vec<u8> = (0..width).map(|_| self.random.byte()).collect();
                    self.say_names(&bytes, absent);
                }
                self.lines.say("names  7");
                self.lines.say("names ");
                self.lines.say("names 0 7");
                self.lines.say("names 0g 7");
            }
        }
    }

    /// Asks exact lists of several counts for the number at the last place.
    fn names_last(&mut self, node: u64) {
        self.format.summary = SummaryKind::Exact;
        self.say_kind();
        let mut summary = vec![0; SummaryKind::Exact.width()];
        summary[249..].copy_from_slice(&node.to_be_bytes());
        let any = self.random.pick(&[64, 128, 255]);
        for count in [31, 32, 33, any] {
            summary[0] = count;
            self.say_names(&summary, node);
        }
    }

    fn say_names(&mut self, summary: &[u8], node: u64) {
        let digits = self.random.cased(hex(summary));
        let node = self.random.digits(node);
        self.lines.say(format!("names {digits} {node}"));
    }

    fn pack_case(&mut self, turn: usize) {
        let most = self.random.between(3, 40);
        for count in [[0, 33], [1, 32], [2, 31], [most, 34]][turn % 4] {
            let mut numbers = self.random.different_nodes(count);
            if count > 1 && self.random.one_in(3) {
                numbers[count - 1] = numbers[0];
            }
            let line = format!("pack{}", self.spaced(&numbers));
            self.lines.say(line);
        }
    }

    fn hash_case(&mut self) {
        for _ in 0..8 {
            let seed = u64::from(self.random.stamp());
            let number = self.random.node();
            let (seed, number) = (self.random.digits(seed), self.random.digits(number));
            self.lines.say(format!("hash {seed} {number}"));
        }
    }

    /// Lines with slips, often after a move was begun.
    fn malformed_case(&mut self, turn: usize) {
        const LINES: usize = 10;
        for line in 0..LINES {
            if line % 4 == 0 && !self.random.one_in(3) {
                self.lines.say("move 1 1 0");
            }
            let slip = spoilt_line(&mut self.random, &VOCABULARY, turn * LINES + line);
            self.lines.say(slip);
        }
        self.unsure = true;
    }

    /// Numbers at the limits, with a move begun, of each kind in its turn.
    fn limits_case(&mut self, turn: usize) {
        self.change_kind(Some([SettingKind::Colour, SettingKind::Link][turn % 2]));
        self.lines.say("move 1 1 0");
        for line in limit_lines(&LIMITS, turn / 2) {
            self.lines.say(line);
        }
        self.lines.say("send");
        self.unsure = true;
    }

    /// Sessions that break a limit, or two; the session before them stays.
    fn session_case(&mut self) {
        const MANY: [u64; 7] = [0, 9, 255, 256, 257, (1 << 32) + 1, u64::MAX];
        let few: Vec<u64> = (10..13).collect();
        let twice = [10, 11, 12, 10];
        let too_many: Vec<u64> = (10..75).collect();
        let mut last_twice: Vec<u64> = (10..74).collect();
        last_twice[63] = 10 + self.random.below(63) as u64;
        let mut too_many_twice = too_many.clone();
        too_many_twice[64] = 10;
        for nodes in [&few[..], &[], &twice, &too_many] {
            let suites = self.random.pick(&MANY);
            let line = self.session_line(suites, nodes);
            self.lines.say(line);
        }
        for nodes in [&[][..], &twice, &too_many, &last_twice, &too_many_twice] {
            let suites = self.random.between(1, 8) as u64;
            let line = self.session_line(suites, nodes);
            self.lines.say(line);
        }
        self.lines.say("session 1 0 5 05");
        self.lines.say("session 1 0 ");
        self.lines.say("session 18446744073709551616 0 1");
        self.say_message_of_a_move();
        self.change_session(Some(64));
    }

    /// A line of exactly the longest length, and one that is a byte longer.
    fn long_case(&mut self, turn: usize) {
        if turn % 8 == 7 {
            return self.hidden_lines();
        }
        let node = self.random.node();
        let (front, filler, end) = match turn % 8 {
            0 => ("hash ".to_string(), b'0', format!("5 {node}")),
            1 => (self.long_message_front(), b'0', String::new()),
            2 => ("#".to_string(), 0xff, String::new()),
            3 => ("pack 1 ".to_string(), b'0', node.to_string()),
            4 => (String::new(), self.random.pick(b" x\x80"), String::new()),
            5 => ("session 1 0 ".to_string(), b'0', node.to_string()),
            _ => ("names ".to_string(), b'a', format!(" {node}")),
        };
        for length in [LONGEST_LINE, LONGEST_LINE + 1] {
            self.lines.say(padded(&front, filler, &end, length));
        }
        self.unsure = true;
    }

    /// The front of a `message` line whose message, filled up to the longest
    /// line, has a true length field.
    fn long_message_front(&mut self) -> String {
        let described = self.good_move(Some(1));
        let mut bytes = self.message_of(&described);
        let follow = (LONGEST_LINE - "message ".len()) / 2 - 2;
        bytes[0..2].copy_from_slice(&(follow as u16).to_be_bytes());
        format!("message {}", hex(&bytes))
    }

    /// Lines that are longer by a whole command.
    fn hidden_lines(&mut self) {
        for (front, filler, length) in [
            ("#", b'.', LONGEST_LINE),
            ("pack ", b'1', LONGEST_LINE + 1),
            ("send", b'\r', 2 * LONGEST_LINE),
        ] {
            self.lines
                .say(padded(front, filler, "hash 1 2", length + "hash 1 2".len()));
        }
    }
}

#[cfg(test)]
mod tests {
    use super::*;
    use crate::message_tool::MessageTool;
    use crate::script::testing;

    fn generated(seed: u64, cases: u64) -> Vec<u8> {
        let mut lines = Vec::new();
        generate(seed, cases, &mut lines).unwrap();
        lines
    }

    fn answered(lines: &[u8]) -> Vec<String> {
        testing::answer_lines(MessageTool::new, lines)
    }

    #[test]
    fn a_seed_always_gives_the_same_lines() {
        assert_eq!(generated(1, 100), generated(1, 100));
        assert_ne!(generated(1, 100), generated(2, 100));
    }

    #[test]
    fn no_seed_and_no_number_of_cases_fails() {
        for seed in [0, u64::MAX].into_iter().chain(3..40) {
            assert!(!answered(&generated(seed, seed % 50)).is_empty());
        }
    }

    #[test]
    fn the_size_stays_within_bounds() {
        for seed in 1..6 {
            assert!(generated(seed, 400).len() < 450_000);
        }
        assert!(generated(1, 400).len() < 400_000);
    }

    #[test]
    fn lines_of_the_longest_length_come_up() {
        let lines = generated(1, 400);
        assert_ne!(lines.last(), Some(&b'\n'));
        for length in [LONGEST_LINE, LONGEST_LINE + 1] {
            let count = lines
                .split(|byte| *byte == b'\n')
                .filter(|line| line.len() == length)
                .count();
            assert!(count >= 8, "{count} lines of {length} bytes");
        }
    }

    #[test]
    fn every_fault_and_every_error_comes_up() {
        let answers = answered(&generated(1, 400));
        let fronts = [
            "fault frame 1 at byte 0:",
            "fault frame 2 at byte 2:",
            "fault frame 3 at byte 3:",
            "fault frame 3 at byte 4:",
            "fault frame 4 at byte 5:",
            "fault frame 5 at byte 6:",
            "fault writes 6 at byte ",
            "fault kind 7 at byte ",
            "error: a line has at most 4096 bytes",
            "error: unknown command",
            "error: expected kind",
            "error: expected session",
            "error: expected move",
            "error: expected read",
            "error: expected write",
            "error: expected send",
            "error: expected message",
            "error: expected pack",
            "error: expected names",
            "error: expected hash",
            "error: no session yet",
            "error: no move yet",
            "error: a session has 1 to 8 suites",
            "error: a session has 1 to 64 nodes",
            "error: a node number stands twice",
            "error: a move reads at most 32 nodes",
            "error: a move writes at most 16 nodes",
            "error: the suite is not 1 to 8",
            "error: the slot is not 1 to 4",
            "error: a message has 1 to 16 writes",
            "error: a summary is packed from at most 32 numbers",
            "error: this summary has another width",
            "composed ",
            "hash ",
            "named",
            "not named",
            "names",
            "summary ",
            "ok",
        ];
        for front in fronts {
            let count = answers
                .iter()
                .filter(|line| line.starts_with(front))
                .count();
            assert!(count >= 9, "{front:?} comes up {count} times");
        }
        for (front, least) in [("fault writes 6", 8), ("fault kind 7", 8)] {
            let mut lines: Vec<&String> = answers
                .iter()
                .filter(|line| line.starts_with(front))
                .collect();
            lines.sort();
            lines.dedup();
            assert!(lines.len() >= least, "{front:?} at {} bytes", lines.len());
        }
    }
}
