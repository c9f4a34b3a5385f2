//! What settings ask of a board.

use crate::board::Board;
use crate::check::{check_fields, numbers_of};
use crate::fixed::{check_parts, unknown_and_whole};
use crate::least::{self, List};
use crate::refusal::{check_limit, Refusal};
use crate::registers::REGISTERS;
use crate::wanted::wanted;

/// The image that settings want, the registers that must be written for it, and the
/// least list that writes them.
pub(crate) struct Needs {
    /// The wanted image.
    pub(crate) wanted: [u8; REGISTERS],
    /// A map of the needed registers.
    pub(crate) needed: u64,
    /// The least list.
    pub(crate) list: List,
}

impl Needs {
    /// What settings ask, in transactions of at most `limit` data bytes. Checks the
    /// limit, the settings' count, their fields in order, then 11 for registers fixed
    /// only in part.
    #[inline(always)]
    pub(crate) fn of(board: Board, settings: &[i32], limit: u32) -> Result<Needs, Refusal> {
        check_limit(limit)?;
        let numbers = numbers_of(settings)?;
        check_fields(numbers)?;
        check_parts(board, numbers)?;
        let (found, known) = (board.registers, board.known);
        let wanted = wanted(found, numbers);
        let changed = least::differing(found, &wanted) & known;
        let needed = changed | unknown_and_whole(known, numbers);
        let list = least::list(needed, needed | known, limit);
        Ok(Needs {
            wanted,
            needed,
            list,
        })
    }
}
