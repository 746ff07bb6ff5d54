//! What each call answers and leaves, case by case.

use super::*;
use crate::lines::{Kind, PLACE};
use crate::message::Fault;
use crate::settings::SettingKind;
use crate::summaries::SummaryKind;

const COLOUR_EXACT: Format = Format {
    setting: SettingKind::Colour,
    summary: SummaryKind::Exact,
};
const LINK_BLOOM: Format = Format {
    setting: SettingKind::Link,
    summary: SummaryKind::Bloom,
};

/// A session and the memory that it works in.
#[derive(Clone, Debug, PartialEq, Eq)]
struct World {
    session: Session,
    memory: Memory,
}

/// A call, for tests that try them all.
type Call = fn(&mut World, SuiteSlot) -> Result<(), Refusal>;

/// All calls but making, at node 7 where they ask for one.
const CALLS: [Call; 8] = [
    |world, at| world.begin(at).map(|_| ()),
    |world, at| world.read(at, 7).map(|_| ()),
    |world, at| world.write(at, 7, link(1)),
    |world, at| world.commit(at).map(|_| ()),
    |world, at| world.abandon(at),
    |world, at| world.collect(at).map(|_| ()),
    |world, _| world.settle(),
    |world, at| world.take(at.suite).map(|_| ()),
];

impl World {
    fn new(format: Format, suites: u64, nodes: &[u64], places: usize) -> World {
        let mut memory = memory(suites, nodes.len(), places);
        World {
            session: Session::new(format, suites, nodes, &mut memory).unwrap(),
            memory,
        }
    }

    fn begin(&mut self, at: SuiteSlot) -> Result<u32, Refusal> {
        self.session.begin(&self.memory, at)
    }

    fn read(&mut self, at: SuiteSlot, node: u64) -> Result<Setting, Refusal> {
        self.session.read(&self.memory, at, node)
    }

    fn write(&mut self, at: SuiteSlot, node: u64, setting: Setting) -> Result<(), Refusal> {
        self.session.write(&mut self.memory, at, node, setting)
    }

    fn commit(&mut self, at: SuiteSlot) -> Result<Commit, Refusal> {
        self.session.commit(&mut self.memory, at)
    }

    fn abandon(&mut self, at: SuiteSlot) -> Result<(), Refusal> {
        self.session.abandon(&self.memory, at)
    }

    fn collect(&mut self, at: SuiteSlot) -> Result<Outcome, Refusal> {
        self.session.collect(&self.memory, at)
    }

    fn settle(&mut self) -> Result<(), Refusal> {
        self.session.settle(&mut self.memory)
    }

    fn take(&mut self, suite: u64) -> Result<Ruling, Refusal> {
        self.session.take(&mut self.memory, suite)
    }

    /// Begins a move that reads some nodes and writes others.
    fn begin_move(&mut self, at: SuiteSlot, reads: &[u64], writes: &[(u64, u64)]) {
        self.begin(at).unwrap();
        for node in reads {
            self.read(at, *node).unwrap();
        }
        for (node, number) in writes {
            self.write(at, *node, link(*number)).unwrap();
        }
    }

    /// Lets a move write the node and go through suite 1, where it is made.
    fn land(&mut self, slot: u64, node: u64, number: u64) {
        self.begin_move(at(1, slot), &[], &[(node, number)]);
        assert_eq!(self.commit(at(1, slot)), Ok(Commit::Sent));
        self.settle().unwrap();
        self.take(1).unwrap();
        self.collect(at(1, slot)).unwrap();
    }

    /// Offers these bytes, settles, and takes them at suite 1.
    fn take_bytes(&mut self, bytes: &[u8]) -> Ruling {
        self.memory.line.offer(1, bytes).unwrap();
        self.settle().unwrap();
        self.take(1).unwrap()
    }

    /// Checks that the call is refused so and leaves everything as it was.
    fn check_refused<T>(
        &mut self,
        call: impl Fn(&mut World) -> Result<T, Refusal>,
        refusal: Refusal,
    ) {
        let before = self.clone();
        assert_eq!(call(self).err(), Some(refusal));
        assert_eq!(*self, before);
    }
}

fn at(suite: u64, slot: u64) -> SuiteSlot {
    SuiteSlot { suite, slot }
}

fn link(number: u64) -> Setting {
    Setting::Link(Some(number))
}

fn done(stamp: u32) -> Ruling {
    Ruling::Outcome(Outcome::Done { stamp })
}

fn clash(node: u64) -> Ruling {
    Ruling::Outcome(Outcome::Clash { node })
}

/// Memory of the right size that holds anything.
fn memory(suites: u64, nodes: usize, places: usize) -> Memory {
    let setting = link(99);
    Memory {
        versions: vec![Version { stamp: 8, setting }; suites as usize * nodes * 5],
        writes: vec![(99, setting); suites as usize * 64],
        line: Line::new(Kind::FirstCome, places * PLACE),
    }
}

/// A world of two suites and the nodes 7 and 9.
fn two_suites() -> World {
    World::new(LINK_BLOOM, 2, &[7, 9], 40)
}

#[test]
fn making_fills_the_versions_alone() {
    let mut memory = memory(3, 2, 1);
    memory.line.offer(2, b"waits").unwrap();
    let before = memory.clone();
    let session = Session::new(COLOUR_EXACT, 3, &[9, 0], &mut memory).unwrap();
    assert_eq!(session.suites, vec![Suite::default(); 3]);
    assert_eq!(session.nodes, [9, 0]);
    let setting = Setting::Colour([0; 3]);
    assert_eq!(memory.versions, vec![Version { stamp: 0, setting }; 30]);
    assert_eq!((memory.writes, memory.line), (before.writes, before.line));
}

#[test]
fn making_is_refused_in_order() {
    let many: Vec<u64> = (0..65).collect();
    let most = &many[..64];
    for (suites, nodes, refusal) in [
        (0, &[][..], Refusal::SuiteCount),
        (9, &[7, 7], Refusal::SuiteCount),
        (u64::MAX, &[7], Refusal::SuiteCount),
        (1, &[], Refusal::NodeCount),
        (8, &many, Refusal::NodeCount),
        (8, &[1; 65], Refusal::NodeCount),
        (1, &[7, 9, 7], Refusal::RepeatedNode),
        (1, &[1; 64], Refusal::RepeatedNode),
        (1, most, Refusal::MemorySize),
    ] {
        let mut handed = memory(1, 1, 1);
        let before = handed.clone();
        let made = Session::new(LINK_BLOOM, suites, nodes, &mut handed);
        assert_eq!(made.err(), Some(refusal));
        assert_eq!(handed, before);
    }
    assert!(Session::new(LINK_BLOOM, 8, most, &mut memory(8, 64, 1)).is_ok());
}

/// Ways in which memory has a wrong size.
const WRONG_SIZES: [fn(&mut Memory); 7] = [
    |memory| memory.versions.truncate(19),
    |memory| memory.versions.push(memory.versions[0]),
    |memory| memory.versions.clear(),
    |memory| memory.writes.truncate(127),
    |memory| memory.writes.push(memory.writes[0]),
    |memory| memory.line = Line::new(Kind::FirstCome, PLACE - 1),
    |memory| memory.line = Line::new(Kind::Turn, 4097 * PLACE),
];

#[test]
fn every_call_needs_memory_of_the_right_size() {
    for spoil in WRONG_SIZES {
        let mut handed = memory(2, 2, 1);
        spoil(&mut handed);
        let before = handed.clone();
        let made = Session::new(LINK_BLOOM, 2, &[7, 9], &mut handed);
        assert_eq!(made.err(), Some(Refusal::MemorySize));
        assert_eq!(handed, before);
        for call in CALLS {
            for wrong in [at(1, 1), at(0, 0), at(9, 9)] {
                let mut world = two_suites();
                spoil(&mut world.memory);
                world.check_refused(|world| call(world, wrong), Refusal::MemorySize);
            }
        }
    }
}

#[test]
fn suites_and_slots_are_counted_from_1() {
    let wrong_suites = [0, 3, 9, 257, (1 << 32) + 1, u64::MAX];
    let wrong_slots = [0, 5, 9, 257, (1 << 32) + 1, u64::MAX];
    let mut world = two_suites();
    for call in &CALLS[..6] {
        for suite in wrong_suites {
            world.check_refused(|world| call(world, at(suite, 1)), Refusal::NoSuchSlot);
        }
        for slot in wrong_slots {
            world.check_refused(|world| call(world, at(1, slot)), Refusal::NoSuchSlot);
        }
    }
    for suite in wrong_suites {
        world.check_refused(|world| world.take(suite), Refusal::NoSuchSlot);
        world.check_refused(|world| world.read(at(suite, 1), 8), Refusal::NoSuchSlot);
    }
    assert_eq!(world.begin(at(2, 4)), Ok(0));
}

#[test]
fn a_call_needs_a_slot_in_the_right_state() {
    let mut world = two_suites();
    world.begin_move(at(1, 3), &[], &[(7, 1)]);
    world.begin_move(at(1, 4), &[], &[(9, 1)]);
    for slot in [4, 3] {
        assert_eq!(world.commit(at(1, slot)), Ok(Commit::Sent));
    }
    world.settle().unwrap();
    world.take(1).unwrap();
    world.begin(at(1, 2)).unwrap();
    // Slot 1 is idle now, 2 open, 3 sent and 4 ruled. Begin, read, write,
    // commit, abandon, collect:
    let state = Some(Refusal::SlotState);
    let table = [
        [None, state, state, state, state, state],
        [state, None, None, None, None, state],
        [state, state, state, state, state, Some(Refusal::NotRuled)],
        [state, state, state, state, state, None],
    ];
    for (slot, refusals) in (1..).zip(table) {
        for (call, refusal) in CALLS.iter().zip(refusals) {
            let mut world = world.clone();
            match refusal {
                None => assert_eq!(call(&mut world, at(1, slot)), Ok(())),
                Some(refusal) => world.check_refused(|world| call(world, at(1, slot)), refusal),
            }
        }
    }
    // The state comes before the node.
    for slot in [1, 3, 4] {
        world.check_refused(|world| world.read(at(1, slot), 8), Refusal::SlotState);
        world.check_refused(
            |world| world.write(at(1, slot), 8, link(1)),
            Refusal::SlotState,
        );
    }
    world.check_refused(|world| world.read(at(1, 2), 8), Refusal::UnknownNode);
    world.check_refused(
        |world| world.write(at(1, 2), 8, link(1)),
        Refusal::UnknownNode,
    );
}

#[test]
fn a_move_reads_its_own_writes_and_else_its_snapshot() {
    let mut world = two_suites();
    world.begin(at(1, 1)).unwrap();
    world.land(2, 7, 70);
    world.begin(at(1, 3)).unwrap();
    world.land(2, 7, 71);
    assert_eq!(world.read(at(1, 1), 7), Ok(Setting::Link(None)));
    assert_eq!(world.read(at(1, 3), 7), Ok(link(70)));
    world.write(at(1, 1), 7, link(5)).unwrap();
    assert_eq!(world.read(at(1, 1), 7), Ok(link(5)));
    world.write(at(1, 1), 9, link(6)).unwrap();
    world.write(at(1, 1), 7, link(7)).unwrap();
    assert_eq!(world.read(at(1, 1), 7), Ok(link(7)));
    assert_eq!(world.read(at(1, 1), 9), Ok(link(6)));
    assert_eq!(world.read(at(1, 3), 7), Ok(link(70)));
    // What a move read before it wrote is a read; what it read after is none.
    assert_eq!(world.commit(at(1, 1)), Ok(Commit::Clash { node: 7 }));
}

#[test]
fn a_move_reads_32_nodes() {
    let nodes: Vec<u64> = (0..40).collect();
    let mut world = World::new(LINK_BLOOM, 1, &nodes, 1);
    world.begin_move(at(1, 1), &nodes[..31], &[(39, 5)]);
    for node in [39, 31, 31, 0] {
        assert!(world.read(at(1, 1), node).is_ok());
    }
    world.check_refused(|world| world.read(at(1, 1), 32), Refusal::MoveFull);
    world.check_refused(|world| world.read(at(1, 1), 40), Refusal::UnknownNode);
    // The refusal comes before the one for want of a version.
    for version in &mut world.memory.versions[32 * 5..33 * 5] {
        version.stamp = 1;
    }
    world.check_refused(|world| world.read(at(1, 1), 32), Refusal::MoveFull);
    world.write(at(1, 1), 32, link(6)).unwrap();
    assert_eq!(world.read(at(1, 1), 32), Ok(link(6)));
    assert!(world.read(at(1, 1), 31).is_ok());
}

#[test]
fn a_move_writes_16_nodes() {
    let nodes: Vec<u64> = (0..20).collect();
    let mut world = World::new(LINK_BLOOM, 1, &nodes, 1);
    let writes: Vec<(u64, u64)> = (0..16).map(|node| (node, node)).collect();
    world.begin_move(at(1, 1), &[], &writes);
    world.check_refused(
        |world| world.write(at(1, 1), 16, link(1)),
        Refusal::MoveFull,
    );
    world.check_refused(
        |world| world.write(at(1, 1), 20, link(1)),
        Refusal::UnknownNode,
    );
    world.write(at(1, 1), 0, link(50)).unwrap();
    world.write(at(1, 1), 15, link(51)).unwrap();
    assert_eq!(world.read(at(1, 1), 16), Ok(Setting::Link(None)));
    assert_eq!(world.commit(at(1, 1)), Ok(Commit::Sent));
    world.settle().unwrap();
    assert_eq!(world.take(1), Ok(done(1)));
    world.begin(at(1, 2)).unwrap();
    for (node, number) in [(0, 50), (1, 1), (14, 14), (15, 51)] {
        assert_eq!(world.read(at(1, 2), node), Ok(link(number)));
    }
}

#[test]
fn what_is_visible_is_the_first_of_the_highest_not_above_the_snapshot() {
    let stamps = |world: &mut World, stamps: [u32; 5]| {
        for (place, stamp) in stamps.into_iter().enumerate() {
            let setting = link(place as u64);
            world.memory.versions[10 + 5 + place] = Version { stamp, setting };
        }
    };
    let mut world = two_suites();
    world.session.suites[1].stamp = 4;
    world.begin(at(2, 1)).unwrap();
    for (given, place) in [
        ([0, 0, 0, 0, 0], 0),
        ([0, 4, 3, 4, 5], 1),
        ([5, u32::MAX, 4, 5, 4], 2),
        ([9, 9, 9, 1, 2], 4),
        ([5, 5, 5, 0, 5], 3),
    ] {
        stamps(&mut world, given);
        assert_eq!(world.read(at(2, 1), 9), Ok(link(place)));
    }
    let mut world = two_suites();
    world.begin(at(2, 1)).unwrap();
    stamps(&mut world, [1, 1, 2, u32::MAX, 1]);
    world.check_refused(|world| world.read(at(2, 1), 9), Refusal::NoVersion);
    world.write(at(2, 1), 9, link(20)).unwrap();
    assert_eq!(world.read(at(2, 1), 9), Ok(link(20)));
}

#[test]
fn the_earliest_read_that_is_newer_clashes_at_home() {
    let nodes = [3, 2, 1, 4];
    let mut world = World::new(LINK_BLOOM, 1, &nodes, 8);
    world.begin_move(at(1, 1), &[4, 1, 3, 2], &[]);
    world.begin_move(at(1, 3), &[4, 1, 3, 2], &[(4, 9)]);
    for node in [3, 1, 2] {
        world.land(2, node, 1);
    }
    assert_eq!(world.read(at(1, 3), 2), Ok(Setting::Link(None)));
    assert_eq!(world.commit(at(1, 3)), Ok(Commit::Clash { node: 1 }));
    assert_eq!(world.session.suites[0].slots[2], Slot::Idle);
    world.check_refused(|world| world.settle(), Refusal::NothingWaiting);
    assert_eq!(world.commit(at(1, 1)), Ok(Commit::Read { snapshot: 0 }));
    assert_eq!(world.session.suites[0].slots[0], Slot::Idle);
}

#[test]
fn a_full_line_refuses_a_commit_that_would_be_sent() {
    let mut world = World::new(LINK_BLOOM, 2, &[7, 9], 1);
    world.begin_move(at(1, 2), &[7], &[]);
    world.begin_move(at(1, 3), &[7], &[(9, 1)]);
    world.begin_move(at(1, 4), &[9], &[(9, 1)]);
    world.begin_move(at(1, 1), &[], &[(7, 1)]);
    assert_eq!(world.commit(at(1, 1)), Ok(Commit::Sent));
    world.check_refused(|world| world.commit(at(1, 4)), Refusal::LineFull);
    world.settle().unwrap();
    world.take(1).unwrap();
    world.check_refused(|world| world.commit(at(1, 4)), Refusal::LineFull);
    assert_eq!(world.read(at(1, 4), 9), Ok(link(1)));
    assert_eq!(world.commit(at(1, 3)), Ok(Commit::Clash { node: 7 }));
    assert_eq!(world.commit(at(1, 2)), Ok(Commit::Read { snapshot: 0 }));
    assert_eq!(world.abandon(at(1, 4)), Ok(()));
}

/// The example of docs/MESSAGE.md is what its move sends.
#[test]
fn a_commit_sends_the_message_of_its_move() {
    let mut world = World::new(COLOUR_EXACT, 2, &[9, 7], 1);
    world.begin(at(1, 1)).unwrap();
    world.read(at(1, 1), 7).unwrap();
    for numbers in [[5, 5, 5], [1, -1, 0]] {
        let setting = Setting::Colour(numbers);
        world.write(at(1, 1), 7, setting).unwrap();
    }
    assert_eq!(world.commit(at(1, 1)), Ok(Commit::Sent));
    world.settle().unwrap();
    let mut buffer = [0; 300];
    assert_eq!(world.memory.line.fetch(1, &mut buffer), Ok(287));
    let mut expected = vec![0x01, 0x1d, 1, 1, 1, 1, 0, 0, 0, 0, 1];
    expected.extend([0, 0, 0, 0, 0, 0, 0, 7]);
    expected.extend([0; 248]);
    expected.extend([0, 0, 0, 0, 0, 0, 0, 7, 0, 0, 0, 1]);
    expected.extend([0xff, 0xff, 0xff, 0xff, 0, 0, 0, 0]);
    assert_eq!(buffer[..287], expected);
}

#[test]
fn reads_and_writes_are_sent_in_order_of_the_first() {
    let mut world = World::new(COLOUR_EXACT, 1, &[1, 2, 3], 1);
    world.begin(at(1, 2)).unwrap();
    let grey = |level| Setting::Colour([level; 3]);
    for node in [3, 1, 3] {
        world.read(at(1, 2), node).unwrap();
    }
    for (node, level) in [(2, 4), (1, 5), (2, 6)] {
        world.write(at(1, 2), node, grey(level)).unwrap();
    }
    world.read(at(1, 2), 2).unwrap();
    world.commit(at(1, 2)).unwrap();
    let described = Move {
        suite: 1,
        slot: 2,
        snapshot: 0,
        reads: vec![3, 1],
        writes: vec![(2, grey(6)), (1, grey(5))],
    };
    let mut line = Line::new(Kind::FirstCome, PLACE);
    line.offer(1, &compose(COLOUR_EXACT, &described).unwrap())
        .unwrap();
    assert_eq!(world.memory.line, line);
}

#[test]
fn the_first_node_of_the_session_clashes_on_arrival() {
    let nodes = [3, 2, 1, 4];
    for format in [LINK_BLOOM, COLOUR_EXACT] {
        let mut world = World::new(format, 2, &nodes, 8);
        let setting = format.setting.start();
        for node in [1, 2] {
            world.begin(at(1, node)).unwrap();
            world.write(at(1, node), node, setting).unwrap();
            world.commit(at(1, node)).unwrap();
        }
        world.begin_move(at(2, 4), &[4, 1, 3, 2], &[]);
        world.write(at(2, 4), 3, setting).unwrap();
        assert_eq!(world.commit(at(2, 4)), Ok(Commit::Sent));
        for _ in 0..3 {
            world.settle().unwrap();
        }
        for suite in [2, 1] {
            let rulings: Vec<Ruling> = (0..3).map(|_| world.take(suite).unwrap()).collect();
            assert_eq!(rulings, [done(1), done(2), clash(2)]);
            world.check_refused(|world| world.take(suite), Refusal::AllTaken);
        }
        assert_eq!(world.collect(at(2, 4)), Ok(Outcome::Clash { node: 2 }));
        assert_eq!(world.collect(at(1, 2)), Ok(Outcome::Done { stamp: 2 }));
        assert_eq!(world.collect(at(1, 1)), Ok(Outcome::Done { stamp: 1 }));
    }
}

#[test]
fn moves_that_only_write_all_commit() {
    let mut world = two_suites();
    for suite in [1, 2] {
        world.begin_move(at(suite, 1), &[], &[(7, suite)]);
        assert_eq!(world.commit(at(suite, 1)), Ok(Commit::Sent));
    }
    world.settle().unwrap();
    world.settle().unwrap();
    for suite in [1, 2] {
        assert_eq!(world.take(suite), Ok(done(1)));
        assert_eq!(world.take(suite), Ok(done(2)));
        world.begin(at(suite, 2)).unwrap();
        assert_eq!(world.read(at(suite, 2), 7), Ok(link(2)));
    }
}

#[test]
fn a_void_message_counts_as_taken_and_changes_nothing_else() {
    let described = Move {
        suite: 1,
        slot: 1,
        snapshot: 0,
        reads: vec![7],
        writes: vec![(7, link(1)), (9, link(2))],
    };
    let whole = compose(LINK_BLOOM, &described).unwrap();
    let with = |place: usize, byte: u8| {
        let mut bytes = whole.clone();
        bytes[place] = byte;
        bytes
    };
    let mut world = two_suites();
    world.begin_move(at(1, 1), &[7], &[(7, 1), (9, 2)]);
    assert_eq!(world.commit(at(1, 1)), Ok(Commit::Sent));
    world.settle().unwrap();
    let before = world.clone();
    // The line that is handed now holds messages of other makers.
    world.memory.line = Line::new(Kind::FirstCome, 10 * PLACE);
    for (bytes, fault) in [
        (whole[1..].to_vec(), Fault::Length),
        (with(2, 2), Fault::Version),
        (with(3, 3), Fault::Suite),
        (with(4, 5), Fault::Slot),
        (with(5, 1), Fault::WriteCount),
        (with(9, 1), Fault::Snapshot),
        (with(98, 7), Fault::Node { byte: 91 }),
        (with(81, 8), Fault::Node { byte: 74 }),
        (with(99, 2), Fault::Setting { byte: 99 }),
    ] {
        assert_eq!(world.take_bytes(&bytes), Ruling::Void(fault));
    }
    let mut expected = before.session;
    expected.suites[0].taken = 9;
    assert_eq!(world.session, expected);
    assert_eq!(world.memory.versions, before.memory.versions);
    assert_eq!(world.memory.writes, before.memory.writes);
    assert_eq!(world.take_bytes(&whole), done(1));
    assert_eq!(world.collect(at(1, 1)), Ok(Outcome::Done { stamp: 1 }));
}

#[test]
fn only_a_sent_slot_of_the_message_is_ruled() {
    let described = Move {
        suite: 1,
        slot: 2,
        snapshot: 0,
        reads: vec![],
        writes: vec![(7, link(1))],
    };
    let bytes = compose(LINK_BLOOM, &described).unwrap();
    let mut world = two_suites();
    for (suite, slot) in [(1, 1), (2, 2)] {
        world.begin_move(at(suite, slot), &[], &[(9, 1)]);
        world.commit(at(suite, slot)).unwrap();
    }
    world.memory.line = Line::new(Kind::Turn, 9 * PLACE);
    let slots = |world: &World| {
        let suites = world.session.suites.iter();
        suites.map(|suite| suite.slots.clone()).collect::<Vec<_>>()
    };
    let before = slots(&world);
    assert_eq!(world.take_bytes(&bytes), done(1));
    assert_eq!(world.take(2), Ok(done(1)));
    assert_eq!(slots(&world), before);
    world.begin(at(1, 2)).unwrap();
    let before = slots(&world);
    assert_eq!(world.take_bytes(&bytes), done(2));
    assert_eq!(slots(&world), before);
}

#[test]
fn a_commit_takes_a_place_that_no_open_move_would_read() {
    let mut world = World::new(LINK_BLOOM, 1, &[7, 9], 40);
    for number in 1..=4 {
        world.begin(at(1, number)).unwrap();
        if number < 4 {
            world.memory.line.offer(1, &blind_write(7, number)).unwrap();
            world.settle().unwrap();
            world.take(1).unwrap();
        }
    }
    // All slots are open, at the stamps 0 to 3, and more lands.
    for number in 4..20 {
        let bytes = blind_write(7, number);
        assert_eq!(world.take_bytes(&bytes), done(number as u32));
        assert_eq!(world.read(at(1, 1), 7), Ok(Setting::Link(None)));
        for slot in 2..=4 {
            assert_eq!(world.read(at(1, slot), 7), Ok(link(slot - 1)));
        }
    }
    // A move that has written the node does not read its versions.
    world.write(at(1, 3), 7, link(50)).unwrap();
    let kept = |world: &World, stamp| {
        let mut versions = world.memory.versions[..5].iter();
        versions.any(|version| version.stamp == stamp)
    };
    assert!(kept(&world, 2));
    for number in 20..22 {
        world.take_bytes(&blind_write(7, number));
    }
    assert!(!kept(&world, 2));
    assert!([0, 1, 3].into_iter().all(|stamp| kept(&world, stamp)));
}

/// A message of slot 1 that writes the node and read nothing.
fn blind_write(node: u64, number: u64) -> Vec<u8> {
    let described = Move {
        suite: 1,
        slot: 1,
        snapshot: 0,
        reads: vec![],
        writes: vec![(node, link(number))],
    };
    compose(LINK_BLOOM, &described).unwrap()
}
