//! The message: composing its bytes, and reading them with the faults that
//! a reader finds.

use crate::settings::{Setting, SettingKind};
use crate::summaries::SummaryKind;

/// The most suites that a session has.
pub const MOST_SUITES: u8 = 8;

/// The most slots that a suite has.
pub const MOST_SLOTS: u8 = 4;

/// The most nodes that a move writes.
pub const MOST_WRITES: usize = 16;

/// The number of bytes in front of the summary.
pub const HEADER: usize = 10;

/// The number of bytes of a node number.
pub const NODE: usize = 8;

/// The kinds that a session chose; they decide how its messages are laid out.
#[derive(Clone, Copy, Debug, PartialEq, Eq)]
pub struct Format {
    pub setting: SettingKind,
    pub summary: SummaryKind,
}

impl Format {
    /// The place of the write with this number, counted from 0. For the number
    /// of writes it is the length of the message.
    pub fn write_at(self, write: usize) -> usize {
        HEADER + self.summary.width() + write * (NODE + self.setting.width())
    }
}

/// One write of a move: the node and its new setting.
pub type Write = (u64, Setting);

/// What `compose` is given.
#[derive(Clone, Debug, PartialEq, Eq)]
pub struct Move {
    pub suite: u8,
    pub slot: u8,
    pub snapshot: u32,
    pub reads: Vec<u64>,
    pub writes: Vec<Write>,
}

/// Why `compose` declines.
#[derive(Clone, Copy, Debug, PartialEq, Eq)]
pub enum Declined {
    Suite,
    Slot,
    Reads,
    Writes,
}

/// What a reader knows about its session.
#[derive(Clone, Debug, PartialEq, Eq)]
pub struct Session {
    pub suites: u8,
    pub stamp: u32,
    pub nodes: Vec<u64>,
}

/// The parts of a message without a fault.
#[derive(Clone, Debug, PartialEq, Eq)]
pub struct Message {
    pub suite: u8,
    pub slot: u8,
    pub snapshot: u32,
    pub summary: Vec<u8>,
    pub writes: Vec<Write>,
}

/// The faults of a message, in the order in which they are looked for.
#[derive(Clone, Copy, Debug, PartialEq, Eq)]
pub enum Fault {
    Length,
    Version,
    Suite,
    Slot,
    WriteCount,
    Snapshot,
    /// The byte is the first of the write's node number.
    Node {
        byte: usize,
    },
    /// The byte is the first of the write's setting.
    Setting {
        byte: usize,
    },
}

impl Fault {
    pub fn layer(self) -> &'static str {
        match self {
            Fault::Node { .. } => "writes",
            Fault::Setting { .. } => "kind",
            _ => "frame",
        }
    }

    pub fn cause(self) -> u8 {
        match self {
            Fault::Length => 1,
            Fault::Version => 2,
            Fault::Suite | Fault::Slot => 3,
            Fault::WriteCount => 4,
            Fault::Snapshot => 5,
            Fault::Node { .. } => 6,
            Fault::Setting { .. } => 7,
        }
    }

    pub fn byte(self) -> usize {
        match self {
            Fault::Length => 0,
            Fault::Version => 2,
            Fault::Suite => 3,
            Fault::Slot => 4,
            Fault::WriteCount => 5,
            Fault::Snapshot => 6,
            Fault::Node { byte } | Fault::Setting { byte } => byte,
        }
    }
}

/// The bytes of the move's message. The settings are of the format's kind.
pub fn compose(format: Format, described: &Move) -> Result<Vec<u8>, Declined> {
    if !(1..=MOST_SUITES).contains(&described.suite) {
        return Err(Declined::Suite);
    }
    if !(1..=MOST_SLOTS).contains(&described.slot) {
        return Err(Declined::Slot);
    }
    let summary = format
        .summary
        .pack(&described.reads)
        .ok_or(Declined::Reads)?;
    let count = described.writes.len();
    if !(1..=MOST_WRITES).contains(&count) {
        return Err(Declined::Writes);
    }
    let follow = (format.write_at(count) - 2) as u16;
    let mut bytes = follow.to_be_bytes().to_vec();
    bytes.extend([1, described.suite, described.slot, count as u8]);
    bytes.extend(described.snapshot.to_be_bytes());
    bytes.extend(summary);
    for (node, setting) in &described.writes {
        bytes.extend(node.to_be_bytes());
        bytes.extend(setting.form());
    }
    Ok(bytes)
}

/// The parts of the message, or its first fault.
pub fn read(format: Format, session: &Session, bytes: &[u8]) -> Result<Message, Fault> {
    check_frame(format, session, bytes)?;
    let mut message = Message {
        suite: bytes[3],
        slot: bytes[4],
        snapshot: snapshot(bytes),
        summary: bytes[HEADER..format.write_at(0)].to_vec(),
        writes: Vec::new(),
    };
    for write in 0..usize::from(bytes[5]) {
        let node_at = format.write_at(write);
        let setting_at = node_at + NODE;
        let node = node_number(&bytes[node_at..setting_at]);
        let before = message.writes.iter().any(|(earlier, _)| *earlier == node);
        if before || !session.nodes.contains(&node) {
            return Err(Fault::Node { byte: node_at });
        }
        let setting = format
            .setting
            .read(&bytes[setting_at..format.write_at(write + 1)])
            .ok_or(Fault::Setting { byte: setting_at })?;
        message.writes.push((node, setting));
    }
    Ok(message)
}

/// Checks the header and the length: causes 1 to 5.
fn check_frame(format: Format, session: &Session, bytes: &[u8]) -> Result<(), Fault> {
    if bytes.len() < HEADER || length_field(bytes) != bytes.len() - 2 {
        return Err(Fault::Length);
    }
    if bytes[2] != 1 {
        return Err(Fault::Version);
    }
    if !(1..=session.suites).contains(&bytes[3]) {
        return Err(Fault::Suite);
    }
    if !(1..=MOST_SLOTS).contains(&bytes[4]) {
        return Err(Fault::Slot);
    }
    let count = usize::from(bytes[5]);
    if !(1..=MOST_WRITES).contains(&count) || bytes.len() != format.write_at(count) {
        return Err(Fault::WriteCount);
    }
    if snapshot(bytes) > session.stamp {
        return Err(Fault::Snapshot);
    }
    Ok(())
}

/// The length field of a message that has its two bytes.
fn length_field(bytes: &[u8]) -> usize {
    usize::from(u16::from_be_bytes([bytes[0], bytes[1]]))
}

/// The snapshot of a message that has a whole header.
fn snapshot(bytes: &[u8]) -> u32 {
    u32::from_be_bytes([bytes[6], bytes[7], bytes[8], bytes[9]])
}

/// The number that these bytes are, highest first.
fn node_number(bytes: &[u8]) -> u64 {
    bytes
        .iter()
        .fold(0, |number, byte| number << 8 | u64::from(*byte))
}

#[cfg(test)]
mod tests {
    use super::*;

    const COLOUR_EXACT: Format = Format {
        setting: SettingKind::Colour,
        summary: SummaryKind::Exact,
    };
    const LINK_BLOOM: Format = Format {
        setting: SettingKind::Link,
        summary: SummaryKind::Bloom,
    };

    /// The example of docs/MESSAGE.md.
    fn example() -> (Move, Vec<u8>) {
        let described = Move {
            suite: 1,
            slot: 1,
            snapshot: 0,
            reads: vec![7],
            writes: vec![(7, Setting::Colour([1, -1, 0]))],
        };
        let mut bytes = vec![0x01, 0x1d, 0x01, 0x01, 0x01, 0x01, 0, 0, 0, 0];
        bytes.extend([1, 0, 0, 0, 0, 0, 0, 0, 7]);
        bytes.extend([0; 248]);
        bytes.extend([0, 0, 0, 0, 0, 0, 0, 7]);
        bytes.extend([0, 0, 0, 1, 0xff, 0xff, 0xff, 0xff, 0, 0, 0, 0]);
        (described, bytes)
    }

    fn session() -> Session {
        Session {
            suites: 2,
            stamp: 5,
            nodes: vec![7, 8, 9],
        }
    }

    /// Three writes of links; the writes begin at bytes 74, 91 and 108.
    fn three_links() -> Vec<u8> {
        let described = Move {
            suite: 2,
            slot: 4,
            snapshot: 5,
            reads: vec![7, 100],
            writes: vec![
                (9, Setting::Link(Some(7))),
                (7, Setting::Link(None)),
                (8, Setting::Link(Some(0))),
            ],
        };
        compose(LINK_BLOOM, &described).unwrap()
    }

    fn fault_of(bytes: &[u8]) -> Option<Fault> {
        read(LINK_BLOOM, &session(), bytes).err()
    }

    fn fault_with(changes: &[(usize, u8)]) -> Option<Fault> {
        let mut bytes = three_links();
        for (place, byte) in changes {
            bytes[*place] = *byte;
        }
        fault_of(&bytes)
    }

    #[test]
    fn the_example_is_composed() {
        let (described, bytes) = example();
        assert_eq!(bytes.len(), 287);
        assert_eq!(compose(COLOUR_EXACT, &described), Ok(bytes));
    }

    #[test]
    fn the_example_is_read() {
        let (described, bytes) = example();
        let message = read(COLOUR_EXACT, &session(), &bytes).unwrap();
        assert_eq!(message.suite, described.suite);
        assert_eq!(message.slot, described.slot);
        assert_eq!(message.snapshot, described.snapshot);
        assert_eq!(message.summary, bytes[10..267]);
        assert_eq!(message.writes, described.writes);
    }

    #[test]
    fn links_are_read_back() {
        let bytes = three_links();
        assert_eq!(bytes.len(), 10 + 64 + 3 * 17);
        assert_eq!(bytes[0..2], [0, 123]);
        let message = read(LINK_BLOOM, &session(), &bytes).unwrap();
        assert_eq!((message.suite, message.slot, message.snapshot), (2, 4, 5));
        assert_eq!(
            message.writes,
            [
                (9, Setting::Link(Some(7))),
                (7, Setting::Link(None)),
                (8, Setting::Link(Some(0))),
            ]
        );
    }

    #[test]
    fn compose_declines_in_order() {
        let mut described = Move {
            suite: 9,
            slot: 5,
            snapshot: 0,
            reads: vec![1; 33],
            writes: Vec::new(),
        };
        assert_eq!(compose(LINK_BLOOM, &described), Err(Declined::Suite));
        described.suite = 0;
        assert_eq!(compose(LINK_BLOOM, &described), Err(Declined::Suite));
        described.suite = 8;
        assert_eq!(compose(LINK_BLOOM, &described), Err(Declined::Slot));
        described.slot = 0;
        assert_eq!(compose(LINK_BLOOM, &described), Err(Declined::Slot));
        described.slot = 4;
        assert_eq!(compose(LINK_BLOOM, &described), Err(Declined::Reads));
        described.reads.pop();
        assert_eq!(compose(LINK_BLOOM, &described), Err(Declined::Writes));
        described.writes = vec![(1, Setting::Link(None)); 17];
        assert_eq!(compose(LINK_BLOOM, &described), Err(Declined::Writes));
        described.writes.pop();
        let bytes = compose(LINK_BLOOM, &described).unwrap();
        assert_eq!(bytes.len(), 10 + 64 + 16 * 17);
    }

    #[test]
    fn short_messages_and_false_lengths_are_faults() {
        for length in 0..10 {
            let mut bytes = vec![0; length];
            if length >= 2 {
                bytes[1] = length as u8 - 2;
            }
            assert_eq!(fault_of(&bytes), Some(Fault::Length));
        }
        assert_eq!(fault_with(&[(1, 122)]), Some(Fault::Length));
        assert_eq!(fault_with(&[(1, 124)]), Some(Fault::Length));
        assert_eq!(fault_with(&[(0, 1)]), Some(Fault::Length));
        let whole = three_links();
        assert_eq!(fault_of(&whole[..124]), Some(Fault::Length));
        assert_eq!(
            fault_of(&[0, 8, 2, 0, 0, 0, 0, 0, 0, 0]),
            Some(Fault::Version)
        );
    }

    #[test]
    fn the_header_is_checked_in_order() {
        let all = [(2, 0), (3, 0), (4, 5), (5, 17), (6, 1), (74, 1)];
        let faults = [
            Fault::Version,
            Fault::Suite,
            Fault::Slot,
            Fault::WriteCount,
            Fault::Snapshot,
            Fault::Node { byte: 74 },
        ];
        for (first, fault) in faults.into_iter().enumerate() {
            assert_eq!(fault_with(&all[first..]), Some(fault));
        }
        assert_eq!(fault_with(&[(2, 2)]), Some(Fault::Version));
        assert_eq!(fault_with(&[(3, 3)]), Some(Fault::Suite));
        assert_eq!(fault_with(&[(4, 0)]), Some(Fault::Slot));
        for count in [0, 2, 4, 16, 255] {
            assert_eq!(fault_with(&[(5, count)]), Some(Fault::WriteCount));
        }
        assert_eq!(fault_with(&[(9, 6)]), Some(Fault::Snapshot));
        assert_eq!(fault_with(&[(9, 4)]), None);
    }

    #[test]
    fn counts_out_of_range_that_fit_the_length_are_faults() {
        for count in [0, 17] {
            let length = 10 + 64 + 17 * count;
            let mut bytes = vec![0; length];
            bytes[0..2].copy_from_slice(&(length as u16 - 2).to_be_bytes());
            bytes[2..6].copy_from_slice(&[1, 1, 1, count as u8]);
            assert_eq!(fault_of(&bytes), Some(Fault::WriteCount));
        }
    }

    #[test]
    fn writes_are_checked_one_by_one() {
        let unknown_second = (91, 1);
        let repeated_third = (115, 9);
        let bad_first = (82, 2);
        let bad_second = (107, 1);
        let cases = [
            (vec![unknown_second], Fault::Node { byte: 91 }),
            (vec![repeated_third], Fault::Node { byte: 108 }),
            (vec![bad_first], Fault::Setting { byte: 82 }),
            (vec![bad_second], Fault::Setting { byte: 99 }),
            (vec![bad_first, unknown_second], Fault::Setting { byte: 82 }),
            (vec![bad_second, unknown_second], Fault::Node { byte: 91 }),
            (
                vec![bad_second, repeated_third],
                Fault::Setting { byte: 99 },
            ),
        ];
        for (changes, fault) in cases {
            assert_eq!(fault_with(&changes), Some(fault));
        }
    }

    #[test]
    fn faults_have_layer_cause_and_byte() {
        let cases = [
            (Fault::Length, "frame", 1, 0),
            (Fault::Version, "frame", 2, 2),
            (Fault::Suite, "frame", 3, 3),
            (Fault::Slot, "frame", 3, 4),
            (Fault::WriteCount, "frame", 4, 5),
            (Fault::Snapshot, "frame", 5, 6),
            (Fault::Node { byte: 74 }, "writes", 6, 74),
            (Fault::Setting { byte: 82 }, "kind", 7, 82),
        ];
        for (fault, layer, cause, byte) in cases {
            assert_eq!((fault.layer(), fault.cause()), (layer, cause));
            assert_eq!(fault.byte(), byte);
        }
    }
}
