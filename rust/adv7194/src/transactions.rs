//! The transactions of a packed plan, one after the other.

use crate::ffi;
use crate::refusal::{self, Reason, Refusal};
use std::iter::FusedIterator;

/// Room for the data of any transaction of a packed plan.
pub const DATA_ROOM: usize = 63;

/// One write transaction: where it starts, and its data.
#[derive(Clone, Copy, Debug, PartialEq, Eq)]
pub struct Transaction {
    subaddress: u8,
    count: usize,
    // The data, then zeros.
    bytes: [u8; DATA_ROOM],
}

impl Transaction {
    /// The register of the first data byte.
    pub const fn subaddress(&self) -> u8 {
        self.subaddress
    }

    /// The data, for one register after the other.
    pub fn data(&self) -> &[u8] {
        &self.bytes[..self.count]
    }
}

/// The transactions of a packed plan, in order. Made by [`transactions`].
#[derive(Clone, Debug)]
pub struct Transactions<'a> {
    plan: &'a [u8],
    index: u32,
}

impl Iterator for Transactions<'_> {
    type Item = Transaction;

    fn next(&mut self) -> Option<Transaction> {
        let transaction = transaction(self.plan, self.index).ok()?;
        self.index += 1;
        Some(transaction)
    }
}

impl FusedIterator for Transactions<'_> {}

/// Takes a packed plan apart, to send it: each item is one write transaction,
/// start, address, subaddress, data, stop. Refuses bytes that break the packing;
/// the bus rules aren't judged here ([`play`](crate::play) does).
///
/// ```
/// use adv7194::{plan, transactions, Board, Reason, Settings, NO_LIMIT, PLAN_ROOM};
///
/// let mut bytes = [0; PLAN_ROOM];
/// let board = Board::known([0; 54]);
/// let planned = plan(&board, &Settings::house(), 0x54, NO_LIMIT, &mut bytes)?;
/// let mut bus_bytes = 0;
/// for transaction in transactions(&bytes[..planned.length])? {
///     // Here a board writes to its bus.
///     println!("{:02X} {:02X?}", transaction.subaddress(), transaction.data());
///     bus_bytes += 2 + transaction.data().len() as u32;
/// }
/// assert_eq!(bus_bytes, planned.bus_bytes);
///
/// let hue: Vec<_> = transactions(&[0x06, 0x00, 0x65, 0xC0])?.collect();
/// assert_eq!((hue.len(), hue[0].subaddress(), hue[0].data()), (1, 0x20, &[0x97][..]));
/// assert_eq!(transactions(&[0x00])?.count(), 0);
/// assert_eq!(transactions(&[0x06]).unwrap_err().reason, Reason::PlanBytes);
/// # Ok::<(), adv7194::Refusal>(())
/// ```
pub fn transactions(plan: &[u8]) -> Result<Transactions<'_>, Refusal> {
    match transaction(plan, 0) {
        Err(refusal) if refusal.reason == Reason::PlanBytes => Err(refusal),
        _ => Ok(Transactions { plan, index: 0 }),
    }
}

/// The transaction with this index.
fn transaction(plan: &[u8], index: u32) -> Result<Transaction, Refusal> {
    let mut bytes = [0; DATA_ROOM];
    let answer = ffi::transaction(plan, index, &mut bytes);
    refusal::check(answer.refusal, answer.field)?;
    Ok(Transaction {
        subaddress: answer.subaddress as u8,
        count: answer.count as usize,
        bytes,
    })
}
