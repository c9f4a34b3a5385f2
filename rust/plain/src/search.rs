//! What lists cost at least, by exhausting them, apart from the planner.
//!
//! A list's cost doesn't hang on its order or its bytes, only on the registers
//! its transactions touch: so a list is a choice of spans that keep the rules.

use crate::registers::{span, BARRED_MAP, REGISTERS, WORD_MAP};

/// Bus bytes first, then transactions.
#[derive(Clone, Copy, Debug, PartialEq, Eq, PartialOrd, Ord)]
pub struct Cost {
    /// Bus bytes.
    pub bytes: u32,
    /// Transactions.
    pub transactions: u32,
}

/// Bytes of a transaction before its data: the address and the subaddress.
const BEFORE_DATA: u32 = 2;
/// The most spans whose every choice is tried.
pub const MOST_SPANS: usize = 21;

/// Registers from `first` to `last`, of which transactions touch only `open`
/// ones, and at most `limit` of them.
#[derive(Clone, Copy, Debug)]
pub struct Window {
    /// The lowest register.
    pub first: usize,
    /// The highest register.
    pub last: usize,
    /// A map of the registers that may be touched, where the rules let them.
    pub open: u64,
    /// The most data of a transaction.
    pub limit: u32,
}

/// The least that a set of registers costs, and how many lists do it.
#[derive(Clone, Copy, Debug, PartialEq, Eq)]
pub struct Least {
    /// What they cost.
    pub cost: Cost,
    /// How many lists cost that.
    pub lists: u64,
    /// The registers that one of them touches.
    pub touched: u64,
}

impl Cost {
    /// Nothing to do.
    pub const NONE: Cost = Cost {
        bytes: 0,
        transactions: 0,
    };

    /// This cost and one transaction over `touched` more.
    pub(crate) fn and(self, touched: u64) -> Cost {
        Cost {
            bytes: self.bytes + BEFORE_DATA + touched.count_ones(),
            transactions: self.transactions + 1,
        }
    }
}

impl Window {
    /// The whole chip.
    pub fn chip(open: u64, limit: u32) -> Window {
        Window {
            first: 0,
            last: REGISTERS - 1,
            open,
            limit,
        }
    }

    /// Sets of its registers.
    pub(crate) fn sets(self) -> usize {
        1 << (self.last + 1 - self.first)
    }

    /// Every span of its registers that one transaction may touch, as maps, the
    /// lowest start first and then the shortest. Registers are judged one by one.
    pub fn spans(self) -> Vec<u64> {
        let mut spans = Vec::new();
        for start in self.first..=self.last {
            for end in start..=self.last {
                let touched = span(start, end + 1 - start);
                let barred = touched & (BARRED_MAP | !self.open) != 0;
                let word = touched & WORD_MAP;
                let long = touched.count_ones() > self.limit;
                if !barred && !long && (word == 0 || word == WORD_MAP) {
                    spans.push(touched);
                }
            }
        }
        spans
    }
}

/// For every set of registers of a window (bit 0 for the first) the least cost,
/// by trying every choice of spans. Nothing where no choice does. The window must
/// have at most `MOST_SPANS` spans.
pub fn every_list(window: Window) -> Vec<Option<Least>> {
    let spans = window.spans();
    assert!(
        spans.len() <= MOST_SPANS,
        "too many spans to try every choice"
    );
    let sets = window.sets();
    // For each set the least that touches exactly it.
    let mut exact: Vec<Option<Least>> = vec![None; sets];
    for choice in 0..1usize << spans.len() {
        let mut touched = 0;
        let mut cost = Cost::NONE;
        for (place, &span) in spans.iter().enumerate() {
            if choice >> place & 1 == 1 {
                touched |= span;
                cost = cost.and(span);
            }
        }
        let lists = 1;
        let one = Least {
            cost,
            lists,
            touched,
        };
        lower_or_count(&mut exact[(touched >> window.first) as usize], one);
    }
    let least = |needed: usize| {
        let mut kept = None;
        let supersets = (needed..sets).filter(|touched| touched & needed == needed);
        supersets
            .filter_map(|touched| exact[touched])
            .for_each(|one| lower_or_count(&mut kept, one));
        kept
    };
    (0..sets).map(least).collect()
}

/// Keeps the lower cost; adds up the lists where costs are equal.
fn lower_or_count(kept: &mut Option<Least>, one: Least) {
    match kept {
        Some(old) if old.cost < one.cost => {}
        Some(old) if old.cost == one.cost => old.lists += one.lists,
        _ => *kept = Some(one),
    }
}
