//! Seeded flags of known registers.

use crate::random::Random;
use plain::registers::{self as reg, span, REGISTERS};
use plain::ALL_KNOWN;

/// The registers that hold a field.
pub const FIELDS: u64 = span(reg::MODE_0, 3)
    | span(reg::MODE_5, 1)
    | span(reg::WORD, reg::WORD_BYTES + 1)
    | span(reg::SIGNAL_TOP, reg::SIGNAL_BYTES)
    | span(reg::CONTRAST, reg::READ_ONLY - reg::CONTRAST);
/// The registers that settings can fix in part.
pub const PARTS: u64 = span(reg::MODE_0, 3) | span(reg::SIGNAL_TOP, 1);
/// Flags past the last register.
pub const PAST: u64 = !ALL_KNOWN;
/// The most registers that are unknown where a few are.
const FEW: i32 = 4;
/// One in so many maps of a few unknown registers is any map.
const SELDOM: u64 = 4;

/// Flags: a third knows all registers, a third at least the `kept` ones, and of
/// the last third most know all but a few. Half have flags past the last register.
pub fn flags(random: &mut Random, kept: u64) -> u64 {
    let past = if random.flag() { random.bits() } else { 0 };
    let known = match random.below(3) {
        0 => ALL_KNOWN,
        1 => many(random) | kept,
        _ if random.once_in(SELDOM) => random.bits(),
        _ => few_unknown(random),
    };
    known & ALL_KNOWN | past & PAST
}

/// A map with half or three quarters of the registers.
fn many(random: &mut Random) -> u64 {
    let more = if random.flag() { random.bits() } else { 0 };
    random.bits() | more
}

/// All but a few registers.
fn few_unknown(random: &mut Random) -> u64 {
    let unknown = |random: &mut Random| 1 << random.below(REGISTERS as u64);
    let count = random.within(1, FEW);
    (0..count).fold(ALL_KNOWN, |map, _| map & !unknown(random))
}

/// Flags for planning: a third knows at least what settings can fix in part.
pub fn planning(random: &mut Random) -> u64 {
    flags(random, PARTS)
}

/// Flags for reading: a third knows at least the fields' registers.
pub fn reading(random: &mut Random) -> u64 {
    flags(random, FIELDS)
}
