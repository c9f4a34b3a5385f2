//! Runs that are longer than the limit, cut into transactions.
//!
//! A run is gone through once, upwards. Every register that a transaction can
//! start at gets the best list of the run up to it, as one number: what it costs,
//! and below that its transactions' last registers, the lowest register in the
//! highest bit and each bit inverted. Of two such numbers the lower one is the
//! list with fewer bytes, then fewer transactions, then the one that comes first:
//! where two lists part, the shorter transaction ends at the lower register.

use crate::least::{List, OPENING};
use crate::registers::{span, REGISTERS, WORD_BYTES, WORD_MAP};

/// A list up to a register, as one number.
type Way = u128;

/// The list without transactions.
const NOTHING: Way = u64::MAX as Way;
/// Where the cost of a way stands, above the last registers.
const COST_SHIFT: u32 = u64::BITS;
/// A bus byte weighs more than all transactions.
const BYTE_WEIGHT: u32 = u64::BITS;
/// The registers of the word that no transaction may end at.
const INSIDE_WORD: u64 = WORD_MAP & WORD_MAP >> 1;
/// The least limit that never cuts the word.
pub(crate) const LEAST_LIMIT: u32 = WORD_BYTES as u32;

/// The registers of a map from which on it has more than `limit` in a row: the
/// lowest ones of each longer run.
#[inline]
pub(crate) fn longer(map: u64, limit: u32) -> u64 {
    let (mut found, mut count) = (map, 1);
    while found != 0 && count <= limit {
        let more = count.min(limit + 1 - count);
        found &= found >> more;
        count += more;
    }
    found
}

/// A list whose runs are transactions, with those cut that are longer than the
/// limit, as `longer` found them. Registers between a cut and the next needed one
/// aren't written.
pub(crate) fn cut(list: List, needed: u64, long: u64, limit: u32) -> List {
    let (mut lasts, mut rest) = (list.lasts, long);
    while rest != 0 {
        let first = rest.trailing_zeros();
        let count = (list.written >> first).trailing_ones();
        let run = needed & span(first as usize, count as usize);
        lasts |= cuts(run, limit);
        rest &= u64::MAX << (first + count);
    }
    let after = lasts << 1 & !needed;
    let second = after << 1 & !needed;
    let written = list.written & !(after | second);
    List { written, lasts }
}

/// The last registers of all transactions but the last one, for a run that needs
/// these registers.
fn cuts(run: u64, limit: u32) -> u64 {
    let first = run.trailing_zeros();
    let mut ways = [NOTHING; REGISTERS];
    // Starts in reach, each with a lower way than all starts above it have.
    let mut starts = 1 << first;
    let mut lasts = run & !INSIDE_WORD;
    loop {
        let last = lasts.trailing_zeros();
        starts &= u64::MAX << (last + 1).saturating_sub(limit);
        let way = ways[starts.trailing_zeros() as usize];
        lasts &= lasts - 1;
        if lasts == 0 {
            return (!(way as u64)).reverse_bits();
        }
        let gap = (run >> (last + 1)).trailing_zeros();
        let next = last + 1 + gap;
        let way = way + cost(gap) - (1 << (u64::BITS - 1 - last));
        while starts != 0 && ways[starts.ilog2() as usize] > way {
            starts &= !(1 << starts.ilog2());
        }
        ways[next as usize] = way;
        starts |= 1 << next;
    }
}

/// What a cut costs at a gap of at most two: another opening, less the bridges.
#[inline(always)]
fn cost(gap: u32) -> Way {
    let weight = BYTE_WEIGHT * (OPENING - gap) + 1;
    (weight as Way) << COST_SHIFT
}
