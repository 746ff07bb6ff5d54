//! The cases of each family, way by way.

use super::malformed::{COMMANDS, LIMITS, VOCABULARY};
use super::{Family, Stream, KINDS};
use crate::generate::padded;
use crate::generate::slips::{self, field_lines, limit_lines, spoilt_line};
use crate::lines::{Kind, LONGEST_MESSAGE, MOST_PLACES, PLACE};
use crate::script::LONGEST_LINE;

/// Bytes to make a line over: about none, one, two, 4,096 and 4,097 places.
pub const SIZES: [usize; 14] = [
    0,
    1,
    PLACE - 1,
    PLACE,
    PLACE + 1,
    2 * PLACE - 1,
    2 * PLACE,
    2 * PLACE + 1,
    MOST_PLACES * PLACE - 1,
    MOST_PLACES * PLACE,
    MOST_PLACES * PLACE + 1,
    (MOST_PLACES + 1) * PLACE - 1,
    (MOST_PLACES + 1) * PLACE,
    (MOST_PLACES + 1) * PLACE + 1,
];

const FILLS: [u8; 4] = [0, 1, 127, 255];

/// The most places of a line of few.
pub const MOST_FEW: usize = 5;

/// The suites that the script for both lines begins with.
pub const PATTERNS: [&[usize]; 6] = [
    &[3, 1, 1, 8, 2],
    &[1, 2, 3, 4, 5, 6, 7, 8],
    &[8, 7, 6, 5, 4, 3, 2, 1],
    &[6, 6, 6, 6],
    &[8, 8, 8, 1, 1, 1],
    &[2, 5, 2, 2, 4, 5, 7, 7],
];

const GOOD_SUITES: [u64; 2] = [1, 8];

/// Suites that are none, though in fewer bits some of them would be one.
const BAD_SUITES: [u64; 8] = [0, 9, 255, 256, 257, 1 << 32, (1 << 32) + 1, u64::MAX];

/// Lengths of messages to offer; even the last fits a script line.
pub const LENGTHS: [usize; 7] = [
    0,
    1,
    2,
    LONGEST_MESSAGE - 1,
    LONGEST_MESSAGE,
    LONGEST_MESSAGE + 1,
    1280,
];

/// Lengths of messages to fetch.
pub const FETCHED: [usize; 7] = [1, 2, 255, 256, 257, LONGEST_MESSAGE - 1, LONGEST_MESSAGE];

/// Long script lines: the front, what fills them up, and the end.
pub const LONG: [(&str, u8, &str); 4] = [
    ("offer ", b'0', "7 aa"),
    ("offer 7 ", b'a', ""),
    ("#", 0xff, ""),
    ("turn 2336 ", b'0', "9"),
];

impl Stream {
    pub fn sizes_case(&mut self, way: usize) {
        for kind in KINDS {
            for fill in FILLS {
                self.make(kind, SIZES[way], fill);
                for _ in 0..3 {
                    let suite = self.any_suite();
                    self.offer_short(&[suite]);
                }
                self.settle(1);
                self.lines.say("count");
                self.fetch(1, 3);
                self.lines.say("agreed");
            }
        }
    }

    pub fn full_case(&mut self, way: usize) {
        let places = 1 + way % MOST_FEW;
        self.make_places(KINDS[way / MOST_FEW], places);
        let mut offers = 0;
        while offers < places + 2 {
            match self.random.below(5) {
                0..=2 => {
                    let suite = self.any_suite();
                    self.offer_short(&[suite]);
                    offers += 1;
                }
                3 => self.settle(1),
                _ => self.refused_call(places),
            }
        }
        self.refused_call(places);
        self.settle(places + 1);
        self.offer_short(&[1]);
        self.lines.say("count");
        self.lines.say("agreed");
    }

    /// A call that a line of so many places refuses.
    fn refused_call(&mut self, places: usize) {
        let suite = self.any_suite() as u64;
        let bad_suite = self.random.pick(&BAD_SUITES);
        match self.random.below(6) {
            0 => self.offer(bad_suite, 1),
            1 => self.offer(bad_suite, 0),
            2 => self.offer(suite, 0),
            3 => self.fetch(0, 2),
            4 => self.fetch(1, 0),
            _ => self.fetch(places as u64 + 1, 3),
        }
    }

    /// Settles one message, so that the turn is with the suite after it; then
    /// offers for some suites, and settles, a few times.
    pub fn turns_case(&mut self, way: usize) {
        self.make_places(Kind::Turn, 60);
        self.offer_short(&[way + 1]);
        self.settle(1);
        let mut waiting = 0;
        for _ in 0..self.random.between(1, 3) {
            let suites = self.some_suites();
            self.offer_short(&suites);
            waiting += suites.len();
            let settled = self.random.below(waiting + 1);
            self.settle(settled);
            waiting -= settled;
        }
        self.settle(waiting + 2);
        let suites = [self.any_suite(), self.any_suite()];
        self.offer_short(&suites);
        self.settle(3);
        self.lines.say("agreed");
    }

    /// Some of the suites, once or twice each, in any order.
    fn some_suites(&mut self) -> Vec<usize> {
        let mut suites = vec![self.any_suite()];
        for suite in 1..=8 {
            let times = self.random.pick(&[0, 0, 1, 2]);
            suites.extend(vec![suite; times]);
        }
        self.random.shuffle(&mut suites);
        suites
    }

    pub fn both_case(&mut self, way: usize) {
        let suites = PATTERNS[way];
        let before = std::mem::take(&mut self.lines);
        self.offer_short(suites);
        let settled = self.random.between(1, suites.len());
        self.settle(settled);
        let later = self.some_suites();
        self.offer_short(&later);
        self.refused_call(40);
        self.settle(suites.len() - settled + later.len() + 1);
        self.lines.say("agreed");
        let script = std::mem::replace(&mut self.lines, before);
        let places = suites.len() + later.len() - self.random.below(3);
        for kind in KINDS {
            self.make_places(kind, places);
            self.lines.bytes.extend_from_slice(&script.bytes);
        }
    }

    /// Offers messages of one length: to a line that is not full, to the same
    /// when it is full, to one that has no place, and to one that has too many.
    pub fn lengths_case(&mut self, way: usize) {
        let (kind, length) = (KINDS[way % 2], LENGTHS[way % LENGTHS.len()]);
        let short = length < 3;
        let (mut good, mut bad) = (GOOD_SUITES.to_vec(), BAD_SUITES.to_vec());
        if !short {
            // One of each will do, since the lines are long.
            good = vec![self.random.pick(&good)];
            bad = vec![self.random.pick(&bad)];
        }
        self.make_places(kind, 3);
        if short || length > LONGEST_MESSAGE {
            self.offers_of(length, &bad);
        }
        self.offers_of(length, &good);
        self.offer_short(&[8, 1, 2]);
        if short || length > LONGEST_MESSAGE {
            self.offers_of(length, &good);
        }
        if short {
            self.offers_of(length, &bad);
        }
        self.settle(4);
        self.lines.say("agreed");
        let none = self.random.pick(&[0, PLACE - 1]);
        let too_many = self.random.pick(&[(MOST_PLACES + 1) * PLACE, 5_000_000]);
        for bytes in [none, too_many] {
            self.make(kind, bytes, 0);
            if short {
                self.offers_of(length, &bad);
                self.offers_of(length, &good);
            }
            self.settle(1);
            self.lines.say("agreed");
        }
    }

    fn offers_of(&mut self, length: usize, suites: &[u64]) {
        for suite in suites {
            self.offer(*suite, length);
        }
    }

    /// Three agreed messages, of which the last has the length that matters,
    /// and one that waits.
    pub fn fetches_case(&mut self, way: usize) {
        let suite = self.any_suite() as u64;
        let first = self.random.between(1, 4);
        let last = FETCHED[way % FETCHED.len()];
        self.make_places(KINDS[way % 2], 5);
        self.lines.say("count");
        self.fetch(1, first);
        for length in [first, 3, last, 2] {
            self.offer(suite, length);
        }
        self.fetch(1, first);
        self.settle(3);
        self.lines.say("count");
        let numbers = [(1, first), (3, last), (0, 1), (4, 2), (u64::MAX, 3)];
        for (place, (number, length)) in numbers.into_iter().enumerate() {
            for room in [length - 1, length, length + 1, 0] {
                self.fetch(number, room);
            }
            if place == 1 || place == self.turns[Family::Fetches as usize] % numbers.len() {
                self.fetch(number, 2048);
            }
        }
        for number in [257, 65_537, (1 << 32) + 1] {
            self.fetch(number, first);
        }
        self.lines.say("agreed");
    }

    /// Many messages for suite 8, and then one for each other suite; all of them
    /// are settled in the end.
    pub fn many_case(&mut self, way: usize) {
        let many = self.random.between(256, 266);
        let mut others: Vec<usize> = (1..8).collect();
        self.random.shuffle(&mut others);
        self.make_places(KINDS[way], many + others.len());
        self.offer_short(&vec![8; many]);
        self.offer_short(&others);
        self.offer_short(&[8]);
        self.settle(others.len() + 1);
        self.lines.say("agreed");
        self.settle(many - 1);
        self.settle(1);
        self.lines.say("count");
        for number in [255, 256, 257, many + 7, many + 8] {
            self.fetch(number as u64, 3);
        }
        self.lines.say("agreed");
    }

    /// Makes a line with an agreed message, one that waits, and more places.
    fn make_any(&mut self) {
        let kind = self.random.pick(&KINDS);
        self.make_places(kind, 40);
        self.offer_short(&[2, 1]);
        self.settle(1);
    }

    pub fn malformed_case(&mut self, way: usize) {
        let lines = slips::TURNS / Family::Malformed.ways();
        self.make_any();
        for line in 0..lines {
            let slip = spoilt_line(&mut self.random, &VOCABULARY, way * lines + line);
            self.lines.say(slip);
        }
        self.lines.say("agreed");
    }

    pub fn fields_case(&mut self) {
        self.make_any();
        for line in field_lines(&COMMANDS) {
            self.lines.say(line);
        }
        self.settle(1);
        self.lines.say("agreed");
    }

    pub fn limits_case(&mut self, way: usize) {
        self.make_any();
        for line in limit_lines(&LIMITS, way) {
            self.lines.say(line);
        }
        self.lines.say("agreed");
    }

    /// A script line of one byte less than the longest, one of the longest, and
    /// one of a byte more. After the comments comes one that hides a command.
    pub fn long_case(&mut self, way: usize) {
        let (front, filler, end) = LONG[way];
        self.make_any();
        for length in [LONGEST_LINE - 1, LONGEST_LINE, LONGEST_LINE + 1] {
            self.lines.say(padded(front, filler, end, length));
        }
        if front == "#" {
            let length = 2 * (LONGEST_LINE + 1) + "settle".len();
            self.lines.say(padded(front, filler, "settle", length));
        }
        self.settle(2);
        self.lines.say("agreed");
    }
}
