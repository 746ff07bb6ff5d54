//! Messages that were whole and are spoilt in one way or another. Some of the
//! ways may leave a message without a fault.

use crate::generate::random::Random;
use crate::message::{Format, Session, HEADER, MOST_WRITES, NODE};
use crate::settings::SettingKind;
use crate::summaries::SummaryKind;

/// The ways to spoil a message.
#[derive(Clone, Copy, PartialEq, Eq)]
pub enum Damage {
    /// Another value in this byte of the header.
    Header(usize),
    /// The length field one too high or too low.
    FalseLength,
    /// One bit anywhere is turned over.
    TurnedBit,
    /// Only the first bytes are left: none, one, and so on to 12.
    FirstBytes,
    /// Only a part is left.
    Part,
    /// One byte less or more.
    OneByte,
    /// A count of writes that is out of range or does not fit the length.
    WriteCount,
    /// A whole write less or more, the count as it was.
    OneWrite,
    /// A suite above the session's.
    HighSuite,
    /// A snapshot near the reader's stamp.
    NearSnapshot,
    /// A node that an earlier write has.
    RepeatedNode,
    /// A node that is not in the session.
    UnknownNode,
    /// A setting that is no link.
    BadSetting,
    /// Bad nodes and bad settings in several writes.
    BadWrites,
    /// Several bytes of the header with other values.
    BadHeader,
    /// Other bytes in the summary.
    OtherSummary,
}

/// All ways, those that bring about the rarer faults more than once.
pub const DAMAGES: [Damage; 30] = [
    Damage::Header(0),
    Damage::BadSetting,
    Damage::Header(1),
    Damage::RepeatedNode,
    Damage::Header(2),
    Damage::FirstBytes,
    Damage::Header(3),
    Damage::UnknownNode,
    Damage::Header(4),
    Damage::BadWrites,
    Damage::Header(5),
    Damage::OtherSummary,
    Damage::Header(6),
    Damage::BadSetting,
    Damage::Header(7),
    Damage::OneByte,
    Damage::Header(8),
    Damage::BadHeader,
    Damage::Header(9),
    Damage::FalseLength,
    Damage::TurnedBit,
    Damage::Part,
    Damage::RepeatedNode,
    Damage::WriteCount,
    Damage::NearSnapshot,
    Damage::OneWrite,
    Damage::HighSuite,
    Damage::BadWrites,
    Damage::OtherSummary,
    Damage::TurnedBit,
];

impl Damage {
    /// Whether only links can be spoilt in this way.
    pub fn needs_links(self) -> bool {
        matches!(self, Damage::BadSetting | Damage::BadWrites)
    }

    /// How many writes the message should have, where that matters.
    pub fn writes(self, random: &mut Random) -> Option<usize> {
        match self {
            Damage::RepeatedNode | Damage::UnknownNode | Damage::BadSetting => {
                Some(random.between(1, 6))
            }
            Damage::BadWrites => Some(random.between(2, 6)),
            _ => None,
        }
    }

    /// How many times a message is spoilt in this way.
    pub fn times(self) -> usize {
        match self {
            Damage::FirstBytes => 13,
            Damage::WriteCount => 4,
            Damage::Header(2..=5) => 3,
            Damage::BadHeader | Damage::BadSetting | Damage::BadWrites => 2,
            _ => 1,
        }
    }

    /// The message spoilt in this way. The time is counted from 0.
    pub fn apply(
        self,
        time: usize,
        random: &mut Random,
        format: Format,
        session: &Session,
        whole: &[u8],
    ) -> Vec<u8> {
        let mut bytes = whole.to_vec();
        match self {
            Damage::Header(place) => change_header(time, session, &mut bytes, place),
            Damage::FalseLength => {
                let follow = bytes.len() - 2;
                let false_length = random.pick(&[follow - 1, follow + 1]);
                set_length(&mut bytes, false_length);
            }
            Damage::TurnedBit => {
                let place = random.below(bytes.len());
                bytes[place] ^= 1 << random.below(8);
            }
            Damage::FirstBytes => {
                bytes.truncate(time);
                fit_mostly(random, &mut bytes);
            }
            Damage::Part => {
                let length = random.between(HEADER, bytes.len() - 1);
                bytes.truncate(length);
                fit_mostly(random, &mut bytes);
            }
            Damage::OneByte => {
                if random.one_in(2) {
                    bytes.pop();
                } else {
                    bytes.push(random.byte());
                }
                fit_mostly(random, &mut bytes);
            }
            Damage::WriteCount => change_write_count(time, format, &mut bytes),
            Damage::OneWrite => {
                let last = bytes.split_off(format.write_at(usize::from(bytes[5]) - 1));
                if random.one_in(2) {
                    bytes.extend(last.repeat(2));
                }
                fit(&mut bytes);
            }
            Damage::HighSuite => bytes[3] = session.suites + 1,
            Damage::NearSnapshot => {
                let stamp = session.stamp;
                let snapshot = random.pick(&[stamp.saturating_add(1), stamp, u32::MAX]);
                bytes[6..10].copy_from_slice(&snapshot.to_be_bytes());
            }
            Damage::RepeatedNode => repeat_node(random, format, &mut bytes),
            Damage::UnknownNode => {
                let write = random.below(usize::from(bytes[5]));
                set_node(format, &mut bytes, write, random.other_node(&session.nodes));
            }
            Damage::BadSetting => {
                let write = random.below(usize::from(bytes[5]));
                spoil_setting(time, random, format, &mut bytes, write);
            }
            Damage::BadWrites => {
                for write in 0..usize::from(bytes[5]) {
                    if random.one_in(3) {
                        set_node(format, &mut bytes, write, random.other_node(&session.nodes));
                    }
                    if random.one_in(3) {
                        spoil_setting(time, random, format, &mut bytes, write);
                    }
                }
            }
            Damage::BadHeader => {
                for place in 2..HEADER {
                    if random.one_in(3) {
                        change_header(random.below(5), session, &mut bytes, place);
                    }
                }
            }
            Damage::OtherSummary => {
                let summary = other_summary(random, format.summary, &session.nodes);
                bytes[HEADER..format.write_at(0)].copy_from_slice(&summary);
            }
        }
        bytes
    }
}

/// Bytes for a summary that were not packed, with some of the nodes among them.
pub fn other_summary(random: &mut Random, kind: SummaryKind, nodes: &[u64]) -> Vec<u8> {
    match kind {
        SummaryKind::Exact => {
            let count = random.pick(&[0, 1, 2, 5, 31, 32, 33, 34, 64, 128, 255]);
            let mut summary = vec![count];
            for _ in 0..32 {
                let number = match random.below(4) {
                    0 | 1 => random.pick(nodes),
                    2 => random.node(),
                    _ => 0,
                };
                summary.extend(number.to_be_bytes());
            }
            summary
        }
        SummaryKind::Bloom => {
            let fullness = random.below(5);
            let byte = |_| match fullness {
                0 => 0,
                1 => random.byte(),
                2 => random.byte() | random.byte(),
                3 => random.byte() | random.byte() | random.byte(),
                _ => 255,
            };
            (0..64).map(byte).collect()
        }
    }
}

/// Sets the length field to the number of bytes after it.
fn fit(bytes: &mut [u8]) {
    if bytes.len() >= 2 {
        set_length(bytes, bytes.len() - 2);
    }
}

/// Fits the length field three times in four.
fn fit_mostly(random: &mut Random, bytes: &mut [u8]) {
    if !random.one_in(4) {
        fit(bytes);
    }
}

fn set_length(bytes: &mut [u8], length: usize) {
    bytes[0..2].copy_from_slice(&(length as u16).to_be_bytes());
}

/// Puts another value into a byte of the header, one at an edge. Each time has
/// another value.
fn change_header(time: usize, session: &Session, bytes: &mut [u8], place: usize) {
    let before = bytes[place];
    let edges = match place {
        0 | 1 => [255, 0, 1, 2, 128],
        2 => [0, 2, 0x81, 255, 0x11],
        3 => [session.suites + 1, 0, 255, 9, 128],
        4 => [5, 0, 255, 6, 128],
        5 => [before - 1, before + 1, 17, 0, 255],
        _ => [255, 1, 128, 0, 127],
    };
    bytes[place] = edges[time % edges.len()];
    if bytes[place] == before {
        bytes[place] ^= 0x40;
    }
}

/// Gives the message no write or 17 of them, or counts one too many or too few.
fn change_write_count(time: usize, format: Format, bytes: &mut Vec<u8>) {
    match time {
        0 => {
            bytes.truncate(format.write_at(0));
            bytes[5] = 0;
        }
        1 => {
            let last = bytes[format.write_at(usize::from(bytes[5]) - 1)..].to_vec();
            while bytes.len() < format.write_at(MOST_WRITES + 1) {
                bytes.extend_from_slice(&last);
            }
            bytes[5] = MOST_WRITES as u8 + 1;
        }
        2 => bytes[5] += 1,
        _ => bytes[5] -= 1,
    }
    fit(bytes);
}

/// Gives a write the node of an earlier one, adding a write if there is but one.
fn repeat_node(random: &mut Random, format: Format, bytes: &mut Vec<u8>) {
    if bytes[5] == 1 {
        let only = bytes[format.write_at(0)..].to_vec();
        bytes.extend(only);
        bytes[5] = 2;
        fit(bytes);
    }
    let later = random.between(1, usize::from(bytes[5]) - 1);
    let earlier = format.write_at(random.below(later));
    bytes.copy_within(earlier..earlier + NODE, format.write_at(later));
}

fn set_node(format: Format, bytes: &mut [u8], write: usize, node: u64) {
    let at = format.write_at(write);
    bytes[at..at + NODE].copy_from_slice(&node.to_be_bytes());
}

/// Makes a write's setting one that is no link's form: the first time by its
/// first byte, then by zeros with one byte that is none. A colour gets any bytes.
fn spoil_setting(time: usize, random: &mut Random, format: Format, bytes: &mut [u8], write: usize) {
    let at = format.write_at(write) + NODE;
    let setting = &mut bytes[at..format.write_at(write + 1)];
    if format.setting == SettingKind::Colour {
        setting.fill_with(|| random.byte());
    } else if time == 0 {
        setting[0] = random.pick(&[2, 3, 16, 128, 129, 255]);
    } else {
        setting.fill(0);
        let any = random.between(1, 8);
        setting[random.pick(&[1, 8, any])] = random.pick(&[1, 128, 255]);
    }
}
