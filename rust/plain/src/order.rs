//! The first of the least lists, by comparing lists transaction by transaction,
//! apart from the planner.

use crate::registers::REGISTERS;
use crate::search::{Cost, Window};

/// A list: the first register of each transaction, and its data bytes. Of two
/// lists the one with the lower first start is less, then the one with the
/// shorter first transaction, then by the second start and so on.
pub type Spans = Vec<(u32, u32)>;

/// A list after what it costs: the least of these is the list that planning
/// takes.
pub type Ranked = (Cost, Spans);

/// A span's first register, and how many it has.
fn ends(touched: u64) -> (u32, u32) {
    (touched.trailing_zeros(), touched.count_ones())
}

/// Keeps the list that ranks first.
fn keep(kept: &mut Option<Ranked>, cost: Cost, list: &[(u32, u32)]) {
    let first = match kept {
        Some((least, spans)) => (cost, list) < (*least, spans.as_slice()),
        None => true,
    };
    if first {
        *kept = Some((cost, list.to_vec()));
    }
}

/// Which lists are tried.
struct Tried {
    spans: Vec<u64>,
    first: usize,
    // The most transactions.
    most: usize,
    // Whether each transaction starts past the one before.
    ascending: bool,
    // For each set of registers, the list that ranks first of those that touch exactly it.
    exact: Vec<Option<Ranked>>,
}

impl Tried {
    /// Tries a list, and all that begin with it.
    fn all(&mut self, list: &mut Spans, touched: u64, cost: Cost) {
        keep(
            &mut self.exact[(touched >> self.first) as usize],
            cost,
            list,
        );
        if list.len() == self.most {
            return;
        }
        let past = list.last().map_or(0, |&(start, count)| start + count);
        for place in 0..self.spans.len() {
            let span = self.spans[place];
            if self.ascending && span.trailing_zeros() < past {
                continue;
            }
            list.push(ends(span));
            self.all(list, touched | span, cost.and(span));
            list.pop();
        }
    }

    /// For each set the list that ranks first of those that touch it, and whatever else.
    fn covering(mut self) -> Vec<Option<Ranked>> {
        let sets = self.exact.len();
        for bit in (0..).map(|place| 1 << place).take_while(|bit| *bit < sets) {
            for set in (0..sets).filter(|set| set & bit == 0) {
                if let Some((cost, list)) = self.exact[set | bit].clone() {
                    keep(&mut self.exact[set], cost, &list);
                }
            }
        }
        self.exact
    }
}

/// For every set of registers of a window (bit 0 for the first) the list that
/// ranks first, by trying every list of at most `most` transactions; where
/// `ascending`, only those in which each starts past the one before.
pub fn every_order(window: Window, most: usize, ascending: bool) -> Vec<Option<Ranked>> {
    let mut tried = Tried {
        spans: window.spans(),
        first: window.first,
        most,
        ascending,
        exact: vec![None; window.sets()],
    };
    tried.all(&mut Vec::new(), 0, Cost::NONE);
    tried.covering()
}

/// The list that ranks first of those that begin with a span over the register
/// `lowest` and go on with the list that is left to do after it.
fn begun<'a>(
    lowest: u64,
    spans: &[u64],
    left: impl Fn(u64) -> Option<&'a Ranked>,
) -> Option<Ranked> {
    let mut kept: Option<Ranked> = None;
    for &touched in spans.iter().filter(|touched| *touched & lowest != 0) {
        let Some((cost, rest)) = left(touched) else {
            continue;
        };
        let cost = cost.and(touched);
        if kept.as_ref().is_none_or(|kept| cost <= kept.0) {
            let list = [&[ends(touched)], rest.as_slice()].concat();
            keep(&mut kept, cost, &list);
        }
    }
    kept
}

/// The same for wider windows: some span must cover the lowest needed register, so
/// every such span is tried, with the list that ranks first for what it leaves.
pub fn every_cover(window: Window) -> Vec<Option<Ranked>> {
    let (first, spans) = (window.first, window.spans());
    let mut ranked: Vec<Option<Ranked>> = vec![None; window.sets()];
    ranked[0] = Some((Cost::NONE, Vec::new()));
    for needed in 1..window.sets() {
        let map = (needed as u64) << first;
        let left = |touched: u64| ranked[((map & !touched) >> first) as usize].as_ref();
        ranked[needed] = begun(map & map.wrapping_neg(), &spans, left);
    }
    ranked
}

/// The same for one set of registers of the whole chip, by ascending lists.
/// `spans` are all spans of the chip that may be touched.
pub fn first_of_least(needed: u64, spans: &[u64]) -> Option<Ranked> {
    // ranked[r] is for the needed registers from r up.
    let mut ranked: Vec<Option<Ranked>> = vec![None; REGISTERS + 1];
    ranked[REGISTERS] = Some((Cost::NONE, Vec::new()));
    for register in (0..REGISTERS).rev() {
        let past = |touched: u64| (u64::BITS - touched.leading_zeros()) as usize;
        let left = |touched: u64| ranked[past(touched)].as_ref();
        ranked[register] = match needed >> register & 1 {
            1 => begun(1 << register, spans, left),
            _ => ranked[register + 1].clone(),
        };
    }
    ranked.swap_remove(0)
}
