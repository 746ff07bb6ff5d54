//! Read summaries: the exact list, the Bloom summary, and its hash.

/// The most numbers that a summary is packed from.
pub const MOST_NUMBERS: usize = 32;

/// The number of bits that the Bloom summary has.
const BLOOM_BITS: u64 = 512;

/// The number of positions that a node has in the Bloom summary.
const BLOOM_POSITIONS: u64 = 12;

/// The kind of summary that a whole session uses.
#[derive(Clone, Copy, Debug, PartialEq, Eq)]
pub enum SummaryKind {
    Exact,
    Bloom,
}

impl SummaryKind {
    /// W, the number of bytes of a summary.
    pub fn width(self) -> usize {
        match self {
            SummaryKind::Exact => 1 + 8 * MOST_NUMBERS,
            SummaryKind::Bloom => 64,
        }
    }

    /// The summary of these numbers; nothing if there are more than 32.
    pub fn pack(self, numbers: &[u64]) -> Option<Vec<u8>> {
        if numbers.len() > MOST_NUMBERS {
            return None;
        }
        Some(match self {
            SummaryKind::Exact => pack_exact(numbers),
            SummaryKind::Bloom => pack_bloom(numbers),
        })
    }

    /// Whether the summary names the node; nothing if the summary is not W
    /// bytes long.
    pub fn names(self, summary: &[u8], node: u64) -> Option<bool> {
        if summary.len() != self.width() {
            return None;
        }
        Some(match self {
            SummaryKind::Exact => exact_names(summary, node),
            SummaryKind::Bloom => bloom_names(summary, node),
        })
    }
}

/// The count, the numbers, and zeros up to the width.
fn pack_exact(numbers: &[u64]) -> Vec<u8> {
    let mut summary = vec![numbers.len() as u8];
    for number in numbers {
        summary.extend(number.to_be_bytes());
    }
    summary.resize(SummaryKind::Exact.width(), 0);
    summary
}

/// A count above 32 stands for 32.
fn exact_names(summary: &[u8], node: u64) -> bool {
    let count = usize::from(summary[0]).min(MOST_NUMBERS);
    summary[1..]
        .chunks(8)
        .take(count)
        .any(|number| number == node.to_be_bytes())
}

/// Sets the positions of the numbers and no other bit.
fn pack_bloom(numbers: &[u64]) -> Vec<u8> {
    let mut summary = vec![0; SummaryKind::Bloom.width()];
    for number in numbers {
        for (byte, bit) in bloom_positions(*number) {
            summary[byte] |= bit;
        }
    }
    summary
}

fn bloom_names(summary: &[u8], node: u64) -> bool {
    bloom_positions(node).all(|(byte, bit)| summary[byte] & bit != 0)
}

/// The positions of a node, each as the place of its byte and its bit there.
fn bloom_positions(node: u64) -> impl Iterator<Item = (usize, u8)> {
    let a = murmur2(0, node);
    let b = murmur2(a, node);
    (0..BLOOM_POSITIONS).map(move |i| {
        let position = (u64::from(a) + i * u64::from(b)) % BLOOM_BITS;
        ((position / 8) as usize, 1 << (position % 8))
    })
}

/// The 32-bit MurmurHash2 of the number's eight bytes, highest first.
pub fn murmur2(seed: u32, number: u64) -> u32 {
    const M: u32 = 0x5bd1_e995;
    let bytes = number.to_be_bytes();
    let mut h = seed ^ bytes.len() as u32;
    for word in bytes.chunks(4) {
        let mut k = u32::from_le_bytes([word[0], word[1], word[2], word[3]]);
        k = k.wrapping_mul(M);
        k ^= k >> 24;
        k = k.wrapping_mul(M);
        h = h.wrapping_mul(M);
        h ^= k;
    }
    h ^= h >> 13;
    h = h.wrapping_mul(M);
    h ^ (h >> 15)
}

#[cfg(test)]
mod tests {
    use super::*;

    #[test]
    fn exact_lists_have_their_bytes() {
        let packed = SummaryKind::Exact.pack(&[7, 9]).unwrap();
        let mut expected = vec![2, 0, 0, 0, 0, 0, 0, 0, 7, 0, 0, 0, 0, 0, 0, 0, 9];
        expected.extend([0; 240]);
        assert_eq!(packed, expected);
        assert_eq!(SummaryKind::Exact.pack(&[]), Some(vec![0; 257]));
    }

    #[test]
    fn an_exact_list_names_what_was_packed() {
        let numbers: Vec<u64> = (100..132).collect();
        let packed = SummaryKind::Exact.pack(&numbers).unwrap();
        for node in 90..140 {
            let expected = (100..132).contains(&node);
            assert_eq!(SummaryKind::Exact.names(&packed, node), Some(expected));
        }
    }

    #[test]
    fn the_count_of_an_exact_list_bounds_what_it_names() {
        let mut summary = vec![0; 257];
        assert_eq!(SummaryKind::Exact.names(&summary, 0), Some(false));
        summary[0] = 1;
        assert_eq!(SummaryKind::Exact.names(&summary, 0), Some(true));
        summary[8] = 5;
        summary[256] = 6;
        assert_eq!(SummaryKind::Exact.names(&summary, 0), Some(false));
        assert_eq!(SummaryKind::Exact.names(&summary, 5), Some(true));
        for (count, expected) in [(31, false), (32, true), (33, true), (255, true)] {
            summary[0] = count;
            assert_eq!(SummaryKind::Exact.names(&summary, 6), Some(expected));
        }
    }

    #[test]
    fn the_limits_are_kept() {
        for kind in [SummaryKind::Exact, SummaryKind::Bloom] {
            assert!(kind.pack(&[3; 32]).is_some());
            assert!(kind.pack(&[3; 33]).is_none());
            let width = kind.width();
            assert_eq!(kind.names(&vec![0; width - 1], 1), None);
            assert_eq!(kind.names(&vec![0; width], 1), Some(false));
            assert_eq!(kind.names(&vec![0; width + 1], 1), None);
        }
    }

    /// The hashes are those of the public code.
    #[test]
    fn a_node_has_twelve_positions() {
        assert_eq!(murmur2(0, 7), 1_353_732_916);
        assert_eq!(murmur2(1_353_732_916, 7), 1_468_389_308);
        let positions = [308, 240, 172, 104, 36, 480, 412, 344, 276, 208, 140, 72];
        let mut expected = vec![0; 64];
        for position in positions {
            expected[position / 8] |= 1 << (position % 8);
        }
        assert_eq!(SummaryKind::Bloom.pack(&[7]), Some(expected.clone()));
        assert_eq!(SummaryKind::Bloom.pack(&[7, 7]), Some(expected));
    }

    #[test]
    fn a_bloom_summary_names_what_was_packed() {
        let numbers: Vec<u64> = (0..32).map(|i| i * 0x0123_4567_89ab_cdef).collect();
        let packed = SummaryKind::Bloom.pack(&numbers).unwrap();
        for number in numbers {
            assert_eq!(SummaryKind::Bloom.names(&packed, number), Some(true));
        }
        assert_eq!(SummaryKind::Bloom.names(&[0; 64], 1), Some(false));
        assert_eq!(SummaryKind::Bloom.names(&[255; 64], 1), Some(true));
    }

    #[test]
    fn each_bit_of_a_bloom_summary_is_needed() {
        let packed = SummaryKind::Bloom.pack(&[7]).unwrap();
        for position in 0..512 {
            let mut less = packed.clone();
            less[position / 8] &= !(1 << (position % 8));
            let expected = less == packed;
            assert_eq!(SummaryKind::Bloom.names(&less, 7), Some(expected));
        }
    }
}
