//! Packed plans of other makes, and damaged ones.

use crate::lent::MOST;
use crate::random::Random;
use plain::registers::REGISTERS;
use plain::MOST_DATA;

/// Bits of a count or subaddress in a packed plan.
const HEAD_BITS: u32 = 6;
/// The most transactions that are tried in a plan of another make.
const MOST_TRANSACTIONS: u64 = 5;
/// One in so many transactions has any count of data, past the registers too.
const WIDE: u64 = 12;
/// Subaddresses around the word, the captions and the end.
const CORNERS: [u64; 12] = [
    0x00, 0x0B, 0x0C, 0x0D, 0x0F, 0x10, 0x11, 0x14, 0x15, 0x33, 0x34, 0x35,
];

/// Bits in a row, most significant first.
#[derive(Default)]
struct Bits(Vec<bool>);

impl Bits {
    /// Appends the lowest `width` bits.
    fn put(&mut self, bits: u32, width: u32) {
        self.0
            .extend((0..width).rev().map(|place| bits >> place & 1 == 1));
    }

    /// Whole bytes, with zero bits at the end.
    fn bytes(&self) -> Vec<u8> {
        let byte = |bits: &[bool]| {
            (0..8).fold(0, |byte, place| {
                byte << 1 | (bits.get(place) == Some(&true)) as u8
            })
        };
        self.0.chunks(8).map(byte).collect()
    }
}

/// A packed plan that no planner would make: ascending, and often sound. A start
/// that six bits can't hold ends it.
pub fn foreign(random: &mut Random) -> Vec<u8> {
    let mut list = Vec::new();
    let mut from = 0;
    for _ in 0..random.below(MOST_TRANSACTIONS) {
        let free = REGISTERS as u64 + 1;
        let start = if random.flag() {
            random.one_of(&CORNERS)
        } else {
            random.below(free)
        };
        let start = if random.once_in(3) {
            from
        } else {
            start.max(from)
        };
        if start >= 1 << HEAD_BITS {
            break;
        }
        let count = if random.once_in(WIDE) {
            1 + random.below(MOST_DATA as u64)
        } else {
            1 + random.below(6).min(random.below(8))
        };
        list.push((start as u32, count as u32));
        from = start + count;
    }
    packed(&list, || random.byte())
}

/// Transactions packed, each a subaddress and a data count, with data one after the other.
pub fn packed(list: &[(u32, u32)], mut data: impl FnMut() -> u8) -> Vec<u8> {
    let mut bits = Bits::default();
    bits.put(list.len() as u32, HEAD_BITS);
    for &(start, count) in list {
        bits.put(start, HEAD_BITS);
        bits.put(count, HEAD_BITS);
        (0..count).for_each(|_| bits.put(data() as u32, 8));
    }
    bits.bytes()
}

/// Cuts, extends, flips a bit or replaces a byte.
pub fn damage(random: &mut Random, plan: &mut Vec<u8>) {
    match random.below(4) {
        0 => plan.truncate(random.below(plan.len() as u64 + 1) as usize),
        1 => {
            let more = if random.flag() { 0 } else { random.byte() };
            plan.resize((plan.len() + 1 + random.below(3) as usize).min(MOST), more);
        }
        _ if plan.is_empty() => plan.push(random.byte()),
        2 => {
            let place = random.below(plan.len() as u64) as usize;
            plan[place] ^= 1 << random.below(8);
        }
        _ => {
            // The first bytes hold counts.
            let place = random.below(plan.len().min(4) as u64) as usize;
            plan[place] = random.byte();
        }
    }
}
