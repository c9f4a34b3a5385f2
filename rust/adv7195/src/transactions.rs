//! The transactions of a packed plan, one after the other.

use crate::ffi;
use crate::refusal::{self, Reason, Refusal};
use std::iter::FusedIterator;

/// Room for the data of any transaction of a packed plan.
pub const DATA_ROOM: usize = 63;

/// One write transaction: where it starts, and its data.
#[derive(Clone, Copy, Debug, PartialEq, Eq)]
pub struct Transaction {
    subaddress: u8,
    count: usize,
    // The data, then zeros.
    bytes: [u8; DATA_ROOM],
}

impl Transaction {
    /// The register of the first data byte.
    pub const fn subaddress(&self) -> u8 {
        self.subaddress
    }

    /// The data, for one register after the other.
    pub fn data(&self) -> &[u8] {
        &self.bytes[..self.count]
    }
}

/// The transactions of a packed plan, in order. Made by [`transactions`].
#[derive(Clone, Debug)]
pub struct Transactions<'a> {
    plan: &'a [u8],
    index: u32,
}

impl Iterator for Transactions<'_> {
    type Item = Transaction;

    fn next(&mut self) -> Option<Transaction> {
        let transaction = transaction(self.plan, self.index).ok()?;
        self.index += 1;
        Some(transaction)
    }
}

impl FusedIterator for Transactions<'_> {}

/// Takes a packed plan apart, to send it: each item is one write transaction,
/// start, address, subaddress, data, stop. They come in the plan's own order, which
/// is the order to send them in. Refuses bytes that break the packing; the bus rule
/// and the order of the 3E aren't judged here ([`play`](crate::play) does).
///
/// ```
/// use adv7195::{plan, transactions, Reason, Settings, PLAN_ROOM, REGISTERS};
///
/// // Interpolation goes on and 09 ends as it began: 3E stands there in between.
/// let settings = Settings { interpolation: true, ..Settings::default() };
/// let mut bytes = [0; PLAN_ROOM];
/// let planned = plan(&[0; REGISTERS], &settings, 0x54, &mut bytes)?;
/// let mut sent = Vec::new();
/// for transaction in transactions(&bytes[..planned.length])? {
///     // Here a board writes to its bus.
///     sent.push((transaction.subaddress(), transaction.data().to_vec()));
/// }
/// assert_eq!(sent, [(0x09, vec![0x3E]), (0x03, vec![0x40]), (0x09, vec![0x00])]);
///
/// assert_eq!(transactions(&[0x00])?.count(), 0);
/// assert_eq!(transactions(&[0x04]).unwrap_err().reason, Reason::PlanBytes);
/// # Ok::<(), adv7195::Refusal>(())
/// ```
pub fn transactions(plan: &[u8]) -> Result<Transactions<'_>, Refusal> {
    match transaction(plan, 0) {
        Err(refusal) if refusal.reason == Reason::PlanBytes => Err(refusal),
        _ => Ok(Transactions { plan, index: 0 }),
    }
}

/// The transaction with this index.
fn transaction(plan: &[u8], index: u32) -> Result<Transaction, Refusal> {
    let mut bytes = [0; DATA_ROOM];
    let answer = ffi::transaction(plan, index, &mut bytes);
    refusal::check(answer.refusal, answer.field)?;
    Ok(Transaction {
        subaddress: answer.subaddress as u8,
        count: answer.count as usize,
        bytes,
    })
}
