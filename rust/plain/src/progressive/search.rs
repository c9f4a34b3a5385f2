//! The first of the least lists by an exact search, apart from the planner.
//!
//! What counts of a chip under a list is a state: of each register whether it holds
//! the wanted byte; of 03 MR36 apart from its other bits; of 09 whether its byte is
//! 3E, written by the list or held from the start, or the wanted one or neither. A
//! list leads from state to state, so the least cost of every state comes from going
//! back from the wanted one over every transaction: lists of any length, in any
//! order, with overlaps, with registers written twice and MR36 flipped twice are all
//! among them. A transaction without data only costs.

use super::registers::{FILTER_GAIN, INTERPOLATION_BIT, MODE_3, MODE_6, PREPARING};
use super::Image;
use crate::search::Cost;
use std::cmp::Reverse;
use std::collections::BinaryHeap;

/// A state, or the part of it that a transaction's data make. A set bit is a
/// register's byte that isn't the wanted one.
type State = u32;

/// Registers 00 to 08 have the bits of their numbers, 03's for all its bits but MR36.
/// Then comes the kind of 09's byte, then MR36, then 10 and those above.
const NINE_AT: u32 = MODE_6 as u32;
const NINE: State = 0b11 << NINE_AT;
const FLIPPED: State = 1 << (NINE_AT + 2);
const HIGH_AT: u32 = NINE_AT + 3;
/// The bit for 03's others.
const THREE: State = 1 << MODE_3;
/// The registers from 10 on.
const HIGH: u32 = FILTER_GAIN as u32;

/// Kinds of bytes of 09: the wanted one where that isn't 3E, 3E from the start, 3E
/// written by the list, any other.
const WANTED: State = 0;
const HELD: State = 1 << NINE_AT;
const PREPARED: State = 2 << NINE_AT;
const OTHER: State = 3 << NINE_AT;

/// Which lists are searched.
#[derive(Clone, Copy, Debug, PartialEq, Eq)]
pub struct Lists {
    /// 3E is wanted in 09.
    pub stays: bool,
    /// How many registers from 10 on are searched beside 00 to 09.
    pub high: u32,
    /// Any byte is sent to any register, not only to 03 and 09.
    pub any_data: bool,
}

/// The registers that a transaction touches.
struct Span {
    start: u32,
    count: u32,
    // The bits of the state that it writes.
    mask: State,
    // All that it can write there.
    data: Vec<State>,
}

/// A transaction of a list.
#[derive(Clone, Copy, Debug, PartialEq, Eq)]
pub struct Sent {
    /// Its first register.
    pub start: u32,
    /// Its data bytes.
    pub count: u32,
    /// What its data make of the state.
    pub data: u32,
}

/// Lists that begin alike, with the state each leads to.
type Begun = Vec<(State, Vec<Sent>)>;

/// The least cost of every state.
pub struct Search {
    spans: Vec<Span>,
    least: Vec<Option<Cost>>,
    registers: Vec<u32>,
}

/// The state's bits that a register has.
fn bits(register: u32) -> State {
    match register {
        NINE_AT => NINE,
        _ if register == MODE_3 as u32 => THREE | FLIPPED,
        0..NINE_AT => 1 << register,
        _ => 1 << (register - HIGH + HIGH_AT),
    }
}

/// What a byte written to a register makes of the state.
fn written(register: u32, byte: u8, wanted: &Image) -> State {
    let other = byte ^ wanted[register as usize];
    match bits(register) {
        NINE if byte == PREPARING => PREPARED,
        NINE if other == 0 => WANTED,
        NINE => OTHER,
        mask if mask & FLIPPED != 0 => {
            let flipped = other & INTERPOLATION_BIT != 0;
            let others = other & !INTERPOLATION_BIT != 0;
            u32::from(flipped) * FLIPPED | u32::from(others) * THREE
        }
        mask => u32::from(other != 0) * mask,
    }
}

/// All parts of a mask.
fn parts(mask: State) -> impl Iterator<Item = State> {
    let next = move |part: &State| Some(part.wrapping_sub(mask) & mask);
    std::iter::successors(Some(0), next).take(1 << mask.count_ones())
}

/// Whether a transaction that makes one state of another keeps the order: before it
/// flips MR36 the list has written 3E to 09.
fn keeps_order(before: State, after: State) -> bool {
    (before ^ after) & FLIPPED == 0 || before & NINE == PREPARED
}

impl Lists {
    /// Whether data for these bits can be such.
    fn can_be(self, mask: State, data: State) -> bool {
        let nine = match data & NINE {
            HELD => false,
            WANTED => mask & NINE == 0 || !self.stays,
            _ => true,
        };
        nine && (self.any_data || data & !(NINE | FLIPPED | THREE) == 0)
    }

    /// Every transaction from `first` on that ends before `end`.
    fn block(self, first: u32, end: u32) -> impl Iterator<Item = Span> {
        let spans = (first..end).flat_map(move |start| (1..=end - start).map(move |n| (start, n)));
        spans.map(move |(start, count)| {
            let mask = (start..start + count).map(bits).sum();
            let data = parts(mask).filter(|&data| self.can_be(mask, data));
            Span {
                start,
                count,
                mask,
                data: data.collect(),
            }
        })
    }
}

impl Span {
    /// What this transaction costs with what comes after it.
    fn and(&self, after: Cost) -> Cost {
        after.and(crate::registers::span(0, self.count as usize))
    }
}

impl Search {
    /// Goes back from the wanted state.
    pub fn new(lists: Lists) -> Search {
        let (low, high) = ((0, NINE_AT + 1), (HIGH, HIGH + lists.high));
        let spans: Vec<Span> = lists
            .block(low.0, low.1)
            .chain(lists.block(high.0, high.1))
            .collect();
        let mut least = vec![None; 1 << (HIGH_AT + lists.high)];
        let mut left = BinaryHeap::new();
        for &done in if lists.stays {
            &[HELD, PREPARED][..]
        } else {
            &[WANTED]
        } {
            least[done as usize] = Some(Cost::NONE);
            left.push(Reverse((Cost::NONE, done)));
        }
        while let Some(Reverse((cost, after))) = left.pop() {
            if least[after as usize] != Some(cost) {
                continue;
            }
            for span in spans
                .iter()
                .filter(|span| lists.can_be(span.mask, after & span.mask))
            {
                let cost = span.and(cost);
                for part in parts(span.mask) {
                    let before = after & !span.mask | part;
                    let known = &mut least[before as usize];
                    if keeps_order(before, after) && known.is_none_or(|known| cost < known) {
                        *known = Some(cost);
                        left.push(Reverse((cost, before)));
                    }
                }
            }
        }
        let registers = (low.0..low.1).chain(high.0..high.1).collect();
        Search {
            spans,
            least,
            registers,
        }
    }

    /// What a transaction does on the way to the wanted image.
    pub fn sent(&self, wanted: &Image, start: u32, data: &[u8]) -> Sent {
        let made = (start..)
            .zip(data)
            .map(|(register, &byte)| written(register, byte, wanted));
        Sent {
            start,
            count: data.len() as u32,
            data: made.sum(),
        }
    }

    /// The least cost between two images, and every list that costs it and comes
    /// first by starts and counts: they differ in their data alone. The images may
    /// differ only in registers that are searched.
    pub fn first(&self, found: &Image, wanted: &Image) -> (Cost, Vec<Vec<Sent>>) {
        let all = self.registers.iter();
        let state: State = all
            .map(|&register| written(register, found[register as usize], wanted))
            .sum();
        let start = if state & NINE == PREPARED {
            state ^ PREPARED ^ HELD
        } else {
            state
        };
        let cost = self.least[start as usize].expect("a list to the wanted image");
        let mut left = cost;
        let mut begun: Begun = vec![(start, Vec::new())];
        while left != Cost::NONE {
            let mut further = self
                .spans
                .iter()
                .filter_map(|span| self.further(span, left, &begun));
            (left, begun) = further.next().expect("a least list goes on");
        }
        (cost, begun.into_iter().map(|(_, list)| list).collect())
    }

    /// The lists that go on with a span and cost what is left; what then is left.
    fn further(&self, span: &Span, left: Cost, begun: &Begun) -> Option<(Cost, Begun)> {
        let mut further = Begun::new();
        let mut rest = None;
        for (before, list) in begun {
            for &data in &span.data {
                let after = before & !span.mask | data;
                let least = self.least[after as usize];
                if keeps_order(*before, after) && least.map(|least| span.and(least)) == Some(left) {
                    let sent = Sent {
                        start: span.start,
                        count: span.count,
                        data,
                    };
                    further.push((after, [&list[..], &[sent]].concat()));
                    rest = least;
                }
            }
        }
        Some((rest?, further))
    }
}
