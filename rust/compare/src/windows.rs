//! The exhaustive search, over windows of registers.

use crate::boards::of_kind;
use crate::cases::{self, Image, Numbers, ADDRESS, BEFORE, ROOM};
use crate::comparer::Comparer;
use crate::flags::{FIELDS, PARTS};
use crate::random::Random;
use crate::sending;
use plain::fields as at;
use plain::least;
use plain::order::{every_cover, Ranked};
use plain::registers as reg;
use plain::search::{self, Cost, Window};
use plain::{ALL_KNOWN, NO_LIMIT};

/// Limits that each window is searched with.
const LIMITS: [u32; 5] = [4, 5, 6, 9, NO_LIMIT];

/// Windows, from one register to another.
const WINDOWS: [(usize, usize); 11] = [
    (0x00, 0x05),
    (0x00, 0x0F),
    (0x05, 0x10),
    (0x0A, 0x11),
    (0x0B, 0x18),
    (0x15, 0x24),
    (0x19, 0x1E),
    (0x1C, 0x21),
    (0x24, 0x33),
    (0x2E, 0x33),
    (0x31, 0x35),
];

/// Windows with unknown registers that aren't needed.
const AROUND: [(usize, usize, u64); 6] = [
    (0x00, 0x05, 1 << 0x03),
    (0x00, 0x05, 1 << 0x04),
    (0x00, 0x05, 0b11 << 0x03),
    (0x0A, 0x11, 1 << 0x0B),
    (0x15, 0x24, 1 << 0x1C),
    (0x19, 0x1E, 1 << 0x1C),
];

/// Every set of registers of every window, with each limit; how many there were.
pub fn all(comparer: &mut Comparer, seed: u64) -> u64 {
    let mut random = Random::new(seed);
    let known = WINDOWS.map(|(first, last)| (first, last, 0));
    let mut sets = 0;
    for (first, last, unknown) in known.into_iter().chain(AROUND) {
        // With CGMS every bit of the three registers is set.
        let settings = of_kind(&mut random, at::CGMS);
        let image = cases::settled(&cases::any_image(&mut random), &settings);
        for limit in LIMITS {
            let window = Window {
                first,
                last,
                open: ALL_KNOWN & !unknown,
                limit,
            };
            if limit == NO_LIMIT && window.spans().len() <= search::MOST_SPANS {
                every_list(comparer, window);
            }
            sets += every_set(comparer, &mut random, window, (&settings, &image));
        }
    }
    sets
}

/// Every set of registers of a window: plain Rust's and the archive's list are the one that
/// ranks first. How many there were.
fn every_set(
    comparer: &mut Comparer,
    random: &mut Random,
    window: Window,
    case: (&Numbers, &Image),
) -> u64 {
    let mut sets = 0;
    for (set, ranked) in every_cover(window).into_iter().enumerate() {
        sets += 1;
        let needed = (set as u64) << window.first;
        let Some(ranked) = ranked else { continue };
        let list = least::list(needed, window.open, window.limit);
        let cost = of_counts(list.transactions(), list.data());
        let planned: Ranked = (cost, list.spans().collect());
        comparer.expect(planned == ranked, || {
            format!("plain, not first: {needed:X} in {window:X?} {planned:?} {ranked:?}")
        });
        if needed & !FIELDS == 0 {
            // Needed where it is wrong, or where it is unknown and fixed in whole.
            let unknown = needed & !PARTS & random.bits();
            let known = window.open & !unknown;
            archive(comparer, case, (needed, known, window.limit), ranked);
        }
    }
    sets
}

/// Tries every list of a small window without a limit: the least list is the only one, and the
/// planner's.
fn every_list(comparer: &mut Comparer, window: Window) {
    let lists = search::every_list(window);
    for (set, least) in lists.into_iter().enumerate() {
        let needed = (set as u64) << window.first;
        let written = least::list(needed, window.open, window.limit).written;
        let only = least.is_none_or(|least| least.lists == 1 && least.touched == written);
        comparer.expect(only, || format!("lists for {needed:X}: {least:?}"));
    }
}

/// What so many transactions and data cost.
fn of_counts(transactions: u32, data: u32) -> Cost {
    Cost {
        bytes: least::bus_bytes(transactions, data),
        transactions,
    }
}

/// A bit of a register that a field has.
fn field_bit(register: usize) -> u8 {
    match register {
        reg::MODE_1 => reg::FOUR_TIMES_BIT,
        reg::MODE_2 => reg::PEDESTAL_BIT,
        _ => 1,
    }
}

/// Plans with exactly these registers needed, with these known and a limit, and compares cost
/// and list.
fn archive(
    comparer: &mut Comparer,
    (settings, image): (&Numbers, &Image),
    (needed, known, limit): (u64, u64, u32),
    ranked: Ranked,
) {
    let mut start = *image;
    for (register, byte) in start.iter_mut().enumerate() {
        if (needed & known) >> register & 1 == 1 {
            *byte ^= field_bit(register);
        }
    }
    let room = [BEFORE; ROOM];
    let (answer, lent) = comparer.plan(&start, known, settings, ADDRESS, limit, &room);
    let cost = Cost {
        bytes: answer.bus_bytes,
        transactions: answer.transactions,
    };
    let planned = (cost, sending::listed(&lent.get()[..answer.length as usize]));
    let sound = answer.refusal == 0 && planned == ranked;
    comparer.expect(sound, || {
        format!("archive, not first: {needed:X} known {known:X} limit {limit} {planned:?}")
    });
}
