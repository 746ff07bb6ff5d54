//! The line: it takes the messages that suites offer, and agrees on one order
//! of them.

use std::collections::VecDeque;

use crate::message::MOST_SUITES;
use crate::refusal::Refusal;

/// The bytes of a line's place.
pub const PLACE: usize = 1168;

/// The most places that a line has.
pub const MOST_PLACES: usize = 4096;

/// The bytes of the longest message.
pub const LONGEST_MESSAGE: usize = 1162;

const LISTS: usize = MOST_SUITES as usize;

/// The two lines.
#[derive(Clone, Copy, Debug, PartialEq, Eq)]
pub enum Kind {
    FirstCome,
    Turn,
}

/// How a line chooses the waiting list that a settle serves. Lists are counted
/// from 0.
#[derive(Clone, Debug, PartialEq, Eq)]
enum Choice {
    /// The lists of the messages that wait, in the order of offering.
    FirstCome(VecDeque<usize>),
    /// The list that has the turn.
    Turn(usize),
}

#[derive(Clone, Debug, PartialEq, Eq)]
pub struct Line {
    agreed: Vec<Vec<u8>>,
    waiting: [VecDeque<Vec<u8>>; LISTS],
    limit: usize,
    choice: Choice,
}

impl Line {
    /// An empty line over so many bytes.
    pub fn new(kind: Kind, bytes: usize) -> Line {
        Line {
            agreed: Vec::new(),
            waiting: Default::default(),
            limit: bytes / PLACE,
            choice: match kind {
                Kind::FirstCome => Choice::FirstCome(VecDeque::new()),
                Kind::Turn => Choice::Turn(0),
            },
        }
    }

    /// Puts the message at the end of the suite's waiting list.
    pub fn offer(&mut self, suite: u64, message: &[u8]) -> Result<(), Refusal> {
        self.check_memory()?;
        if !(1..=LISTS as u64).contains(&suite) {
            return Err(Refusal::NoSuchSlot);
        }
        if self.held() == self.limit {
            return Err(Refusal::LineFull);
        }
        if !(1..=LONGEST_MESSAGE).contains(&message.len()) {
            return Err(Refusal::MessageLength);
        }
        let list = suite as usize - 1;
        self.waiting[list].push_back(message.to_vec());
        if let Choice::FirstCome(offered) = &mut self.choice {
            offered.push_back(list);
        }
        Ok(())
    }

    /// Moves the first message of the list whose time has come to the end of
    /// the agreed list.
    pub fn settle(&mut self) -> Result<(), Refusal> {
        self.check_memory()?;
        let list = self.next_list().ok_or(Refusal::NothingWaiting)?;
        let message = self.waiting[list].pop_front();
        self.agreed.push(message.expect("the list is not empty"));
        Ok(())
    }

    /// The length of the agreed list.
    pub fn count(&self) -> Result<usize, Refusal> {
        self.check_memory()?;
        Ok(self.agreed.len())
    }

    /// Copies the agreed message of this number, counted from 1, over the front
    /// of the buffer; gives its length.
    pub fn fetch(&self, number: u64, buffer: &mut [u8]) -> Result<usize, Refusal> {
        self.check_memory()?;
        if !(1..=self.agreed.len() as u64).contains(&number) {
            return Err(Refusal::NoSuchMessage);
        }
        let message = &self.agreed[number as usize - 1];
        if buffer.len() < message.len() {
            return Err(Refusal::NoSuchMessage);
        }
        buffer[..message.len()].copy_from_slice(message);
        Ok(message.len())
    }

    /// The most messages that the line can hold.
    pub fn limit(&self) -> usize {
        self.limit
    }

    pub fn kind(&self) -> Kind {
        match self.choice {
            Choice::FirstCome(_) => Kind::FirstCome,
            Choice::Turn(_) => Kind::Turn,
        }
    }

    fn check_memory(&self) -> Result<(), Refusal> {
        if (1..=MOST_PLACES).contains(&self.limit) {
            Ok(())
        } else {
            Err(Refusal::MemorySize)
        }
    }

    /// How many messages the line holds.
    pub fn held(&self) -> usize {
        self.agreed.len() + self.waiting.iter().map(VecDeque::len).sum::<usize>()
    }

    /// The waiting list to serve now; the choice then goes on to the next.
    fn next_list(&mut self) -> Option<usize> {
        match &mut self.choice {
            Choice::FirstCome(offered) => offered.pop_front(),
            Choice::Turn(turn) => {
                let list = (*turn..LISTS)
                    .chain(0..*turn)
                    .find(|list| !self.waiting[*list].is_empty())?;
                *turn = (list + 1) % LISTS;
                Some(list)
            }
        }
    }
}

#[cfg(test)]
mod tests {
    use super::*;

    const KINDS: [Kind; 2] = [Kind::FirstCome, Kind::Turn];

    fn line(kind: Kind, places: usize) -> Line {
        Line::new(kind, places * PLACE)
    }

    /// Offers one message for each of the suites: `a` for the first, and so on.
    fn offer_letters(line: &mut Line, suites: &[u64]) {
        for (suite, letter) in suites.iter().zip(b'a'..) {
            assert_eq!(line.offer(*suite, &[letter]), Ok(()));
        }
    }

    /// Settles so many messages.
    fn settle(line: &mut Line, times: usize) {
        for _ in 0..times {
            assert_eq!(line.settle(), Ok(()));
        }
    }

    /// The agreed messages, which have one letter each.
    fn agreed(line: &Line) -> String {
        let mut letters = String::new();
        for number in 1..=line.count().unwrap() {
            let mut buffer = [0];
            assert_eq!(line.fetch(number as u64, &mut buffer), Ok(1));
            letters.push(char::from(buffer[0]));
        }
        letters
    }

    /// Checks in which order a line agrees what is offered for these suites.
    fn check_order(kind: Kind, suites: &[u64], expected: &str) {
        let mut line = line(kind, suites.len());
        offer_letters(&mut line, suites);
        settle(&mut line, suites.len());
        assert_eq!(line.settle(), Err(Refusal::NothingWaiting));
        assert_eq!(agreed(&line), expected, "{kind:?} {suites:?}");
    }

    #[test]
    fn the_first_come_line_keeps_the_order_of_offering() {
        check_order(Kind::FirstCome, &[3, 1, 1, 8, 2], "abcde");
        check_order(Kind::FirstCome, &[8, 7, 6, 5, 4, 3, 2, 1], "abcdefgh");
        check_order(Kind::FirstCome, &[2, 2, 1, 2], "abcd");
    }

    #[test]
    fn the_turn_line_goes_round() {
        check_order(Kind::Turn, &[3, 1, 1, 8, 2], "beadc");
        check_order(Kind::Turn, &[8, 7, 6, 5, 4, 3, 2, 1], "hgfedcba");
        check_order(Kind::Turn, &[2, 2, 1, 2], "cabd");
        check_order(Kind::Turn, &[8, 8, 8], "abc");
        check_order(Kind::Turn, &[5, 5, 4, 4, 6], "caedb");
    }

    #[test]
    fn the_turn_stays_where_it_is_while_nothing_waits() {
        let mut line = line(Kind::Turn, 9);
        offer_letters(&mut line, &[6]);
        settle(&mut line, 1);
        assert_eq!(line.settle(), Err(Refusal::NothingWaiting));
        assert_eq!(line.offer(0, b"x"), Err(Refusal::NoSuchSlot));
        for (suite, letter) in [(6, b"b"), (1, b"c"), (7, b"d"), (8, b"e")] {
            assert_eq!(line.offer(suite, letter), Ok(()));
        }
        settle(&mut line, 4);
        assert_eq!(agreed(&line), "adecb");
        // The turn is with suite 7 once more.
        assert_eq!(line.offer(6, b"f"), Ok(()));
        assert_eq!(line.offer(7, b"g"), Ok(()));
        settle(&mut line, 2);
        assert_eq!(agreed(&line), "adecbgf");
    }

    #[test]
    fn offers_between_settles_wait_for_their_turn() {
        for (kind, expected) in [(Kind::FirstCome, "abcd"), (Kind::Turn, "badc")] {
            let mut line = line(kind, 4);
            offer_letters(&mut line, &[2, 1]);
            settle(&mut line, 2);
            assert_eq!(line.offer(2, b"c"), Ok(()));
            assert_eq!(line.offer(3, b"d"), Ok(()));
            settle(&mut line, 2);
            assert_eq!(agreed(&line), expected);
        }
    }

    #[test]
    fn agreed_and_waiting_messages_take_places() {
        for kind in KINDS {
            let mut line = line(kind, 2);
            assert_eq!(line.count(), Ok(0));
            offer_letters(&mut line, &[4]);
            settle(&mut line, 1);
            assert_eq!(line.offer(5, b"b"), Ok(()));
            assert_eq!(line.offer(5, b"c"), Err(Refusal::LineFull));
            settle(&mut line, 1);
            assert_eq!(line.offer(5, b"c"), Err(Refusal::LineFull));
            assert_eq!(line.count(), Ok(2));
            assert_eq!(agreed(&line), "ab");
        }
    }

    #[test]
    fn the_limit_is_the_number_of_whole_places() {
        for kind in KINDS {
            for (bytes, places) in [(1168, 1), (1169, 1), (2335, 1), (2336, 2), (2337, 2)] {
                let mut line = Line::new(kind, bytes);
                offer_letters(&mut line, &[1; 2][..places]);
                assert_eq!(line.offer(1, b"x"), Err(Refusal::LineFull));
            }
            for bytes in [4096 * 1168, 4097 * 1168 - 1] {
                assert_eq!(Line::new(kind, bytes).count(), Ok(0));
            }
        }
    }

    #[test]
    fn a_line_of_no_place_or_too_many_refuses_all_calls() {
        for kind in KINDS {
            for bytes in [0, 1, 1167, 4097 * 1168, 5_000_000] {
                let mut line = Line::new(kind, bytes);
                let mut buffer = [7; 3];
                assert_eq!(line.offer(1, b"a"), Err(Refusal::MemorySize));
                assert_eq!(line.offer(9, b""), Err(Refusal::MemorySize));
                assert_eq!(line.settle(), Err(Refusal::MemorySize));
                assert_eq!(line.count(), Err(Refusal::MemorySize));
                assert_eq!(line.fetch(0, &mut buffer), Err(Refusal::MemorySize));
                assert_eq!(buffer, [7; 3]);
            }
        }
    }

    #[test]
    fn offers_are_checked_in_order() {
        let long = [1; 1163];
        for kind in KINDS {
            let mut line = line(kind, 2);
            for suite in [0, 9, 257, 1 << 32, (1 << 32) + 1, u64::MAX] {
                assert_eq!(line.offer(suite, b"a"), Err(Refusal::NoSuchSlot));
                assert_eq!(line.offer(suite, b""), Err(Refusal::NoSuchSlot));
            }
            assert_eq!(line.offer(1, b""), Err(Refusal::MessageLength));
            assert_eq!(line.offer(8, &long), Err(Refusal::MessageLength));
            assert_eq!(line.settle(), Err(Refusal::NothingWaiting));
            assert_eq!(line.offer(1, &long[..1162]), Ok(()));
            assert_eq!(line.offer(8, &long[..1]), Ok(()));
            assert_eq!(line.offer(0, b"a"), Err(Refusal::NoSuchSlot));
            assert_eq!(line.offer(9, &long), Err(Refusal::NoSuchSlot));
            assert_eq!(line.offer(1, b""), Err(Refusal::LineFull));
            assert_eq!(line.offer(8, &long), Err(Refusal::LineFull));
        }
    }

    #[test]
    fn a_fetch_copies_over_the_front_of_the_buffer() {
        for kind in KINDS {
            let mut line = line(kind, 3);
            for message in [&b"ab"[..], b"cde", b"f"] {
                assert_eq!(line.offer(3, message), Ok(()));
            }
            settle(&mut line, 2);
            let mut buffer = *b".....";
            assert_eq!(line.fetch(1, &mut buffer), Ok(2));
            assert_eq!(&buffer, b"ab...");
            assert_eq!(line.fetch(2, &mut buffer[..3]), Ok(3));
            assert_eq!(&buffer, b"cde..");
            for (number, room) in [(0, 5), (3, 5), (u64::MAX, 5), (1, 1), (2, 2), (1, 0)] {
                let refused = line.fetch(number, &mut buffer[..room]);
                assert_eq!(refused, Err(Refusal::NoSuchMessage));
                assert_eq!(&buffer, b"cde..");
            }
        }
    }
}
