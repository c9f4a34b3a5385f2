//! The planner's list against the exhaustive searches: its cost, and that it comes
//! first, for every set of registers of windows and many limits.

use plain::least::{self, List};
use plain::order::{every_cover, every_order, first_of_least, Ranked};
use plain::registers::{BARRED_MAP, WORD, WORD_MAP};
use plain::search::{every_list, Cost, Window, MOST_SPANS};
use plain::{ALL_KNOWN, NO_LIMIT};

/// Limits that cut small windows, and none.
const LIMITS: [u32; 6] = [4, 5, 6, 7, 8, NO_LIMIT];
/// Windows whose every list of a few transactions is tried, in any order.
const TINY: [(usize, usize); 5] = [
    (0x00, 0x05),
    (0x0B, 0x10),
    (0x19, 0x1E),
    (0x1D, 0x21),
    (0x30, 0x35),
];
/// The most transactions of those lists.
const FEW: usize = 4;
/// Windows whose every ascending list is tried: around the gaps of 03, 04 and 1C,
/// the word and the registers that may not be touched.
const SMALL: [(usize, usize); 5] = [
    (0x00, 0x09),
    (0x06, 0x11),
    (0x09, 0x14),
    (0x18, 0x23),
    (0x2A, 0x35),
];
/// One set in so many is searched over the whole chip.
const SELDOM: usize = 5;
/// Every other register, and two of three.
const OTHERS: u64 = 0x5555_5555_5555_5555;
const TWO_OF_THREE: u64 = 0x6DB6_DB6D_B6DB_6DB6;

/// A window.
fn window((first, last): (usize, usize), open: u64, limit: u32) -> Window {
    Window {
        first,
        last,
        open,
        limit,
    }
}

/// The planner's list for a set of a window's registers, after its cost.
fn planned(needed: u64, window: Window) -> Ranked {
    let list = least::list(needed, window.open, window.limit);
    (cost(list), list.spans().collect())
}

/// A list's cost.
fn cost(list: List) -> Cost {
    let transactions = list.transactions();
    Cost {
        bytes: least::bus_bytes(transactions, list.data()),
        transactions,
    }
}

/// Whether a set of a window's registers can be written at all: it has none that
/// may not be, and a window that cuts the word cannot hold it.
fn reachable(needed: u64, window: Window) -> bool {
    let whole = needed & WORD_MAP == 0 || window.first <= WORD;
    needed & (BARRED_MAP | !window.open) == 0 && whole
}

/// Every set of a window's registers: of the lists that are tried the planner's
/// ranks first.
fn first_of(window: Window, tried: Vec<Option<Ranked>>) {
    for (set, ranked) in tried.into_iter().enumerate() {
        let needed = (set as u64) << window.first;
        assert_eq!(ranked.is_some(), reachable(needed, window));
        if let Some(ranked) = ranked {
            assert_eq!(ranked, planned(needed, window), "{needed:x} in {window:x?}");
        }
    }
}

/// The lists of a window that the lowest needed register leads to, and those of the
/// whole chip for one set in so many.
fn least_in(window: Window) {
    first_of(window, every_cover(window));
    let chip = Window::chip(window.open, window.limit).spans();
    let sets = 0..1u64 << (window.last + 1 - window.first);
    for needed in sets.step_by(SELDOM).map(|set| set << window.first) {
        if reachable(needed, window) {
            let first = first_of_least(needed, &chip);
            assert_eq!(first, Some(planned(needed, window)), "{needed:x}");
        }
    }
}

/// Tries every choice of spans of a small window without a limit: the least list is
/// the only one, and it is the planner's.
fn only(window: Window) {
    for (set, least) in every_list(window).into_iter().enumerate() {
        let needed = (set as u64) << window.first;
        let Some(least) = least else { continue };
        let list = least::list(needed, window.open, window.limit);
        let ours = (cost(list), 1, list.written);
        assert_eq!((least.cost, least.lists, least.touched), ours);
    }
}

/// What may be touched: all; all but each register outside the word; all but
/// some. The word's registers always may: where unknown, they are needed.
fn opens((first, last): (usize, usize)) -> Vec<u64> {
    let one = (first..=last).map(|register| !(1 << register));
    let some = [OTHERS, !OTHERS, TWO_OF_THREE, TWO_OF_THREE << 1];
    let all = std::iter::once(ALL_KNOWN).chain(one).chain(some);
    all.map(|open| (open | WORD_MAP) & ALL_KNOWN).collect()
}

#[test]
fn least_on_windows() {
    let windows = [
        (0x00, 0x05),
        (0x0A, 0x11),
        (0x15, 0x24),
        (0x19, 0x1E),
        (0x31, 0x35),
    ];
    for ends in windows {
        for limit in LIMITS {
            least_in(window(ends, ALL_KNOWN, limit));
        }
        let free = window(ends, ALL_KNOWN, NO_LIMIT);
        if free.spans().len() <= MOST_SPANS {
            only(free);
        }
    }
}

/// Small windows with every set of registers that may not be touched, wider ones
/// with some.
#[test]
fn least_around_unknown_registers() {
    for (first, last) in [(0x00, 0x05), (0x0A, 0x11), (0x19, 0x1E), (0x31, 0x35)] {
        let sets = (1..1 << (last + 1 - first)).map(|set: u64| set << first);
        for unknown in sets.filter(|set| set & WORD_MAP == 0) {
            let open = ALL_KNOWN & !unknown;
            for limit in [4, 5, NO_LIMIT] {
                least_in(window((first, last), open, limit));
            }
            let free = window((first, last), open, NO_LIMIT);
            if free.spans().len() <= MOST_SPANS {
                only(free);
            }
        }
    }
    for unknown in [1 << 0x1C, 0b111 << 0x1A, 1 << 0x1C | 1 << 0x20, 1 << 0x18] {
        for limit in LIMITS {
            least_in(window((0x15, 0x22), ALL_KNOWN & !unknown, limit));
        }
    }
}

#[test]
fn first_of_all_lists() {
    for ends in TINY {
        for open in opens(ends) {
            for limit in [4, 5, NO_LIMIT] {
                let window = window(ends, open, limit);
                first_of(window, every_order(window, FEW, false));
            }
        }
    }
}

#[test]
fn first_of_ascending_lists() {
    for ends in SMALL {
        for open in opens(ends) {
            for limit in LIMITS {
                let window = window(ends, open, limit);
                first_of(window, every_order(window, usize::MAX, true));
            }
        }
    }
}
