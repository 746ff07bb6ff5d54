//! Random numbers that depend on a seed alone, and values picked with them.

use crate::settings::{Setting, SettingKind};

/// Node numbers at edges.
const EDGE_NODES: [u64; 13] = [
    0,
    1,
    2,
    255,
    256,
    (1 << 31) - 1,
    (1 << 32) - 1,
    1 << 32,
    (1 << 63) - 1,
    1 << 63,
    (1 << 63) + 1,
    u64::MAX - 1,
    u64::MAX,
];

/// Stamps and snapshots at edges.
const EDGE_STAMPS: [u32; 8] = [0, 1, 255, 256, 65_535, 1 << 31, u32::MAX - 1, u32::MAX];

/// The numbers of a colour at edges.
const EDGE_LEVELS: [i32; 9] = [
    0,
    1,
    -1,
    65_536,
    -65_536,
    i32::MIN,
    i32::MIN + 1,
    i32::MAX - 1,
    i32::MAX,
];

/// The generator SplitMix64.
pub struct Random {
    state: u64,
}

impl Random {
    pub fn new(seed: u64) -> Random {
        Random { state: seed }
    }

    /// A random number of 64 bits.
    pub fn number(&mut self) -> u64 {
        self.state = self.state.wrapping_add(0x9e37_79b9_7f4a_7c15);
        let mut z = self.state;
        z = (z ^ (z >> 30)).wrapping_mul(0xbf58_476d_1ce4_e5b9);
        z = (z ^ (z >> 27)).wrapping_mul(0x94d0_49bb_1331_11eb);
        z ^ (z >> 31)
    }

    pub fn byte(&mut self) -> u8 {
        self.number() as u8
    }

    /// A number below the bound, which is not 0.
    pub fn below(&mut self, bound: usize) -> usize {
        (self.number() % bound as u64) as usize
    }

    /// A number from the first to the last, both included.
    pub fn between(&mut self, first: usize, last: usize) -> usize {
        first + self.below(last - first + 1)
    }

    /// True once in so many times.
    pub fn one_in(&mut self, times: usize) -> bool {
        self.below(times) == 0
    }

    /// One of the items; there is at least one.
    pub fn pick<T: Copy>(&mut self, items: &[T]) -> T {
        items[self.below(items.len())]
    }

    pub fn shuffle<T>(&mut self, items: &mut [T]) {
        for last in (1..items.len()).rev() {
            items.swap(last, self.below(last + 1));
        }
    }

    /// A node number: a small one, one at an edge, or any.
    pub fn node(&mut self) -> u64 {
        match self.below(4) {
            0 => self.below(10) as u64,
            1 => self.below(1000) as u64,
            2 => self.pick(&EDGE_NODES),
            _ => self.number(),
        }
    }

    /// So many different node numbers.
    pub fn different_nodes(&mut self, count: usize) -> Vec<u64> {
        let mut nodes = Vec::new();
        while nodes.len() < count {
            let node = self.node();
            if !nodes.contains(&node) {
                nodes.push(node);
            }
        }
        nodes
    }

    /// A node number that is not among these.
    pub fn other_node(&mut self, nodes: &[u64]) -> u64 {
        loop {
            let near = self.pick(nodes) ^ 1 << self.below(64);
            let node = if self.one_in(2) { near } else { self.node() };
            if !nodes.contains(&node) {
                return node;
            }
        }
    }

    /// A stamp, a snapshot or a seed.
    pub fn stamp(&mut self) -> u32 {
        match self.below(3) {
            0 => self.below(10) as u32,
            1 => self.pick(&EDGE_STAMPS),
            _ => self.number() as u32,
        }
    }

    pub fn setting(&mut self, kind: SettingKind) -> Setting {
        match kind {
            SettingKind::Colour => Setting::Colour([self.level(), self.level(), self.level()]),
            SettingKind::Link if self.one_in(3) => Setting::Link(None),
            SettingKind::Link => Setting::Link(Some(self.node())),
        }
    }

    /// One number of a colour.
    fn level(&mut self) -> i32 {
        match self.below(3) {
            0 => self.below(200) as i32 - 100,
            1 => self.pick(&EDGE_LEVELS),
            _ => self.number() as i32,
        }
    }

    /// A number in digits, now and then with zeros in front.
    pub fn digits(&mut self, number: u64) -> String {
        let zeros = match self.below(24) {
            0 => 1,
            1 => self.below(30),
            _ => 0,
        };
        "0".repeat(zeros) + &number.to_string()
    }

    /// The digits, now and then some or all of them in upper case.
    pub fn cased(&mut self, digits: String) -> String {
        match self.below(6) {
            0 => digits.to_uppercase(),
            1 => digits
                .chars()
                .map(|digit| match self.one_in(2) {
                    true => digit.to_ascii_uppercase(),
                    false => digit,
                })
                .collect(),
            _ => digits,
        }
    }

    /// A setting in the words of a `write` line; a zero may have a minus.
    pub fn setting_words(&mut self, setting: Setting) -> String {
        match setting {
            Setting::Colour(levels) => levels
                .map(|level| {
                    let minus = level < 0 || level == 0 && self.one_in(3);
                    let digits = self.digits(u64::from(level.unsigned_abs()));
                    if minus {
                        format!("-{digits}")
                    } else {
                        digits
                    }
                })
                .join(" "),
            Setting::Link(None) => "none".to_string(),
            Setting::Link(Some(node)) => self.digits(node),
        }
    }
}
