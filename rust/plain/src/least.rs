//! The least plan as maps of registers: one bit a register.

use crate::cut;
use crate::pack::BYTE_BITS;
use crate::registers::{BARRED_MAP, REGISTERS, WORD_MAP};

/// Bus bytes of a transaction before its data.
pub const OPENING: u32 = 2;

/// Registers that are compared at once.
const CHUNK: usize = 8;
/// Where the chunks of an image begin. The last one overlaps the one before.
const CHUNK_STARTS: [usize; 7] = [0, 8, 16, 24, 32, 40, REGISTERS - CHUNK];
/// The lower seven bits of each byte of a chunk.
const LOWER_BITS: u64 = 0x7F7F_7F7F_7F7F_7F7F;
/// A product with this has the lowest bits of the eight bytes in its top byte,
/// in their order.
const GATHER: u64 = 0x0102_0408_1020_4080;

/// A map of the registers where two images differ, eight registers at a time.
#[inline]
pub fn differing(one: &[u8; REGISTERS], other: &[u8; REGISTERS]) -> u64 {
    let mut map = 0;
    for start in CHUNK_STARTS {
        map |= nonzero_bytes(chunk(one, start) ^ chunk(other, start)) << start;
    }
    map
}

/// Eight registers from `start` on, the first one lowest.
#[inline(always)]
fn chunk(image: &[u8; REGISTERS], start: usize) -> u64 {
    let registers = image[start..][..CHUNK].try_into();
    u64::from_le_bytes(registers.expect("eight registers"))
}

/// One bit for each byte of a chunk that isn't zero.
#[inline(always)]
fn nonzero_bytes(chunk: u64) -> u64 {
    let top_bits = (((chunk & LOWER_BITS) + LOWER_BITS) | chunk) & !LOWER_BITS;
    (top_bits >> (BYTE_BITS - 1)).wrapping_mul(GATHER) >> (u64::BITS - BYTE_BITS)
}

/// A list of ascending transactions: the registers it writes, and those of them
/// that are the last of a transaction.
#[derive(Clone, Copy, Debug, PartialEq, Eq)]
pub struct List {
    /// Every register that is written.
    pub written: u64,
    /// The last register of each transaction.
    pub lasts: u64,
}

impl List {
    /// The list whose transactions are the runs of a map.
    #[inline]
    fn of_runs(written: u64) -> List {
        let lasts = written & !(written >> 1);
        List { written, lasts }
    }

    /// Its transactions.
    #[inline]
    pub fn transactions(self) -> u32 {
        self.lasts.count_ones()
    }

    /// Its data bytes.
    #[inline]
    pub fn data(self) -> u32 {
        self.written.count_ones()
    }

    /// Its transactions in order: the first register of each, and its data bytes.
    #[inline]
    pub fn spans(self) -> impl Iterator<Item = (u32, u32)> {
        let mut rest = self.written;
        std::iter::from_fn(move || {
            if rest == 0 {
                return None;
            }
            let start = rest.trailing_zeros();
            let count = (self.lasts >> start).trailing_zeros() + 1;
            rest &= u64::MAX << (start + count);
            Some((start, count))
        })
    }
}

/// The least list for these needed registers, where only `open` ones may be
/// written and no transaction has more data than `limit`, 4 or more.
#[inline]
pub fn list(needed: u64, open: u64, limit: u32) -> List {
    let needed = whole(needed);
    let written = joined(needed, open);
    let list = List::of_runs(written);
    let long = cut::longer(written, limit);
    if long == 0 {
        return list;
    }
    cut::cut(list, needed, long, limit)
}

/// The needed registers with the whole word where one of its registers is.
#[inline]
fn whole(needed: u64) -> u64 {
    let touches = needed & WORD_MAP != 0;
    if touches {
        needed | WORD_MAP
    } else {
        needed
    }
}

/// The needed registers and the bridges between them. A gap of one is a byte
/// cheaper bridged, a gap of two as cheap with a transaction less; wider ones are
/// dearer.
#[inline]
fn joined(needed: u64, open: u64) -> u64 {
    let free = open & !BARRED_MAP;
    let single = needed << 1 & needed >> 1 & free;
    let pair = needed << 1 & needed >> 2 & free & free >> 1;
    needed | single | pair | pair << 1
}

/// How many runs a map has.
#[inline]
pub fn runs(map: u64) -> u32 {
    (map & !(map << 1)).count_ones()
}

/// Bus bytes of a list with these transactions and data.
#[inline]
pub fn bus_bytes(transactions: u32, data: u32) -> u32 {
    OPENING * transactions + data
}
