//! One transaction of a packed plan, by its index.

use crate::pack::HEAD_BITS;
use crate::refusal::{self, Refusal};
use crate::unpack::Unpacker;

/// The most data that a transaction of a packed plan can have.
pub const MOST_DATA: usize = (1 << HEAD_BITS) - 1;

/// What asking for a transaction answers. After a refusal all but the first
/// two are 0.
#[derive(Clone, Copy, Debug, Default, PartialEq, Eq)]
pub struct TransactionAnswer {
    /// The refusal, or 0.
    pub refusal: u32,
    /// The field at fault: always 0.
    pub field: u32,
    /// The register of the first data byte.
    pub subaddress: u32,
    /// Data bytes.
    pub count: u32,
}

/// In which order a plan's transactions may stand.
#[derive(Clone, Copy, PartialEq, Eq)]
pub(crate) enum Order {
    /// Each starts past the one before.
    Ascending,
    /// Any order, and registers may be written again.
    Any,
}

/// A transaction with its data, at the front of the array.
struct Found {
    subaddress: usize,
    count: usize,
    data: [u8; MOST_DATA],
}

/// Writes the data of transaction `index` to the front of `data`. Checks 9 (the
/// packing alone), 3 for an index past the last transaction, then 10.
pub fn transaction(plan: &[u8], index: u32, data: &mut [u8]) -> TransactionAnswer {
    transaction_in(Order::Ascending, plan, index, data)
}

/// The same for plans whose transactions stand in an order.
pub(crate) fn transaction_in(
    order: Order,
    plan: &[u8],
    index: u32,
    data: &mut [u8],
) -> TransactionAnswer {
    found(order, plan, index, data).unwrap_or_else(|refused| TransactionAnswer {
        refusal: refused.refusal,
        field: refused.field,
        ..TransactionAnswer::default()
    })
}

/// The transaction, with its refusal as an error.
fn found(
    order: Order,
    plan: &[u8],
    index: u32,
    data: &mut [u8],
) -> Result<TransactionAnswer, Refusal> {
    let found = search(order, plan, index).ok_or(Refusal::bare(refusal::PLAN_BYTES))?;
    let found = found.ok_or(Refusal::bare(refusal::RANGE))?;
    let room = data
        .get_mut(..found.count)
        .ok_or(Refusal::bare(refusal::PLAN_ROOM))?;
    room.copy_from_slice(&found.data[..found.count]);
    Ok(TransactionAnswer {
        refusal: 0,
        field: 0,
        subaddress: found.subaddress as u32,
        count: found.count as u32,
    })
}

/// Goes through the whole plan; nothing where its bytes break the packing.
fn search(order: Order, plan: &[u8], index: u32) -> Option<Option<Found>> {
    let mut unpacker = Unpacker::new(plan);
    let transactions = unpacker.head()?;
    let mut found = None;
    let mut last_end = 0;
    for place in 0..transactions {
        let subaddress = unpacker.head()? as usize;
        let count = unpacker.head()? as usize;
        let ascends = order == Order::Any || subaddress >= last_end;
        if count == 0 || !ascends {
            return None;
        }
        let mut data = [0; MOST_DATA];
        unpacker.data(&mut data[..count])?;
        if place == index {
            found = Some(Found {
                subaddress,
                count,
                data,
            });
        }
        last_end = subaddress + count;
    }
    unpacker.is_done().then_some(found)
}
