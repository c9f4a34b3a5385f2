//! Planning: from a board and settings to the packed least plan.

use crate::board::Board;
use crate::least;
use crate::needs::Needs;
use crate::pack;
use crate::refusal::{self, check_address, Refusal};

/// What planning answers. After a refusal all but the first two are 0.
#[derive(Clone, Copy, Debug, Default, PartialEq, Eq)]
pub struct PlanAnswer {
    /// The refusal, or 0.
    pub refusal: u32,
    /// The field at fault, or 0.
    pub field: u32,
    /// Bytes of the packed plan.
    pub length: u32,
    /// Transactions.
    pub transactions: u32,
    /// Bus bytes.
    pub bus_bytes: u32,
}

impl PlanAnswer {
    /// What a refusal answers.
    pub(crate) fn refused(refused: Refusal) -> PlanAnswer {
        PlanAnswer {
            refusal: refused.refusal,
            field: refused.field,
            ..PlanAnswer::default()
        }
    }
}

/// Packs into `plan` the least list of transactions, of at most `limit` data
/// bytes each, that brings a chip holding `image` in its `known` registers to the
/// settings. Checks 1, 2, the limit, the fields in order, 11 for registers fixed
/// only in part, then 10.
pub fn plan(
    image: &[u8],
    known: u64,
    settings: &[i32],
    address: u32,
    limit: u32,
    plan: &mut [u8],
) -> PlanAnswer {
    planned(image, known, settings, address, limit, plan).unwrap_or_else(PlanAnswer::refused)
}

/// Planning, with its refusal as an error.
#[inline]
fn planned(
    image: &[u8],
    known: u64,
    settings: &[i32],
    address: u32,
    limit: u32,
    plan: &mut [u8],
) -> Result<PlanAnswer, Refusal> {
    let board = Board::of(image, known)?;
    check_address(address)?;
    let Needs { wanted, list, .. } = Needs::of(board, settings, limit)?;
    let (transactions, bytes) = (list.transactions(), list.data());
    let length = pack::length(transactions, bytes);
    let room = plan
        .get_mut(..length)
        .ok_or(Refusal::bare(refusal::PLAN_ROOM))?;
    let data = |(start, count)| (start, &wanted[start as usize..][..count as usize]);
    pack::pack(room, transactions, list.spans().map(data));
    Ok(PlanAnswer {
        refusal: 0,
        field: 0,
        length: length as u32,
        transactions,
        bus_bytes: least::bus_bytes(transactions, bytes),
    })
}
