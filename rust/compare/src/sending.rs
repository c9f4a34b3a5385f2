//! Plans taken apart, transaction by transaction.

use crate::both::{Both, Transaction};
use crate::cases::BEFORE;
use crate::comparer::Comparer;
use crate::random::Random;
use plain::least::OPENING;
use plain::order::Spans;
use plain::MOST_DATA;

/// Room for more data than any transaction has.
const DATA_ROOM: usize = MOST_DATA + 3;
/// Indexes that plans often have, and the first one that none has.
const INDEXES: u64 = 6;
/// What an index is mixed with: one that is cut to fewer bits is then another.
const WIDE: [u32; 5] = [0, 1 << 6, 1 << 8, 1 << 16, 1 << 31];

/// Sends a plan transaction by transaction: what the chip then holds, bus bytes
/// and transactions.
pub fn sent<const N: usize>(
    comparer: &mut Comparer,
    walker: Both<Transaction>,
    image: &[u8; N],
    plan: &[u8],
) -> ([u8; N], u32, u32) {
    let (mut after, mut bus_bytes, mut index) = (*image, 0, 0);
    loop {
        let (answer, data) = comparer.transaction_by(walker, plan, index, &[BEFORE; DATA_ROOM]);
        if answer.refusal != 0 {
            return (after, bus_bytes, index);
        }
        let count = answer.count as usize;
        let registers = &mut after[answer.subaddress as usize..][..count];
        registers.copy_from_slice(&data.get()[..count]);
        bus_bytes += OPENING + answer.count;
        index += 1;
    }
}

/// A plan's list, by the plain implementation.
pub fn listed(plan: &[u8]) -> Spans {
    let asked = |index| plain::transaction(plan, index, &mut [0; MOST_DATA]);
    let list = (0..).map(asked).take_while(|one| one.refusal == 0);
    list.map(|one| (one.subaddress, one.count)).collect()
}

/// Asks for one transaction, with any index and about the right room.
pub fn asked(comparer: &mut Comparer, walker: Both<Transaction>, random: &mut Random, plan: &[u8]) {
    let index = match random.below(8) {
        0 => u32::MAX,
        1 => random.bits() as u32,
        _ => random.below(INDEXES) as u32 | random.one_of(&WIDE),
    };
    let count = (walker.plain)(plan, index, &mut [0; DATA_ROOM]).count as usize;
    let room = match random.below(4) {
        0 => random.below(DATA_ROOM as u64 + 1) as usize,
        1 => count.saturating_sub(1),
        2 => count,
        _ => DATA_ROOM,
    };
    comparer.transaction_by(walker, plan, index, &[BEFORE; DATA_ROOM][..room]);
}

/// Asks for every transaction of a plan and some that it hasn't, with each room
/// that is just enough or isn't.
pub fn every(comparer: &mut Comparer, walker: Both<Transaction>, plan: &[u8]) {
    let indexes = WIDE.into_iter().flat_map(|wide| [wide, wide | 1, wide | 2]);
    for index in indexes.chain([u32::MAX]) {
        let count = (walker.plain)(plan, index, &mut [0; DATA_ROOM]).count as usize;
        for room in [0, count.saturating_sub(1), count, DATA_ROOM] {
            comparer.transaction_by(walker, plan, index, &[BEFORE; DATA_ROOM][..room]);
        }
    }
}
