//! The least list of transactions, as registers and counts.

use super::registers::{MODE_3, MODE_6, RESERVED};
use crate::order::{Ranked, Spans};
use crate::registers::span;
use crate::search::Cost;

/// The widest gap between needed registers that is bridged: a gap of one is a byte
/// cheaper that way, a gap of two as cheap with a transaction less.
const WIDEST_BRIDGE: u32 = 2;
/// The registers below the reserved ones.
const LOW_MAP: u64 = span(0, RESERVED);
/// Interpolation's register and the one that is written before it is turned on or off.
const THREE: u32 = MODE_3 as u32;
const NINE: u32 = MODE_6 as u32;

/// The least list for these needed registers, in the order of sending. Where it
/// `flips` interpolation, register 03 is needed, and the first transaction writes 3E
/// to 09; `stays` says that 3E is wanted there. All other data are the wanted bytes.
pub fn list(needed: u64, flips: bool, stays: bool) -> Spans {
    if !flips {
        return runs(needed);
    }
    let low = needed & LOW_MAP | span(MODE_6, 1);
    let first = ways(low, stays).into_iter().map(ranked).min();
    let (_, list) = first.expect("a way to cut");
    [list, runs(needed & !LOW_MAP)].concat()
}

/// The needed registers of a map, from the lowest.
fn registers(map: u64) -> impl Iterator<Item = u32> {
    (0..u64::BITS).filter(move |register| map >> register & 1 == 1)
}

/// A transaction from one register to another.
fn from_to(first: u32, last: u32) -> (u32, u32) {
    (first, last + 1 - first)
}

/// Runs of needed registers with bridges over narrow gaps, ascending. No reserved
/// register is in a bridge: six of them make a wide gap.
fn runs(needed: u64) -> Spans {
    let mut list = Spans::new();
    for register in registers(needed) {
        match list.last_mut() {
            Some((start, count)) if register - (*start + *count) <= WIDEST_BRIDGE => {
                *count = register + 1 - *start;
            }
            _ => list.push((register, 1)),
        }
    }
    list
}

/// Lists that write 09 before 03 and touch these registers of the low block, 03 and
/// 09 among them. Either a transaction up to 09 comes first, cut off between two
/// needed registers, and 09 alone comes last where another byte than 3E is wanted
/// there; or 09 alone comes first and the other one ends at it.
fn ways(low: u64, stays: bool) -> Vec<Spans> {
    let lowest = low.trailing_zeros();
    let inner = || registers(low).filter(|register| *register >= THREE);
    let mut ways = Vec::new();
    for (below, above) in inner().zip(inner().skip(1)) {
        let mut way = vec![from_to(above, NINE), from_to(lowest, below)];
        if !stays {
            way.push(from_to(NINE, NINE));
        }
        ways.push(way);
    }
    if !stays {
        ways.push(vec![from_to(NINE, NINE), from_to(lowest, NINE)]);
    }
    ways
}

/// A list after what it costs.
fn ranked(list: Spans) -> Ranked {
    let touched = |&(start, count): &(u32, u32)| span(start as usize, count as usize);
    let cost = list.iter().map(touched).fold(Cost::NONE, Cost::and);
    (cost, list)
}
