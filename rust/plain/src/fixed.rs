//! Registers that settings fix in whole or in part, where they aren't known.

use crate::board::Board;
use crate::fields::{self as at, number, SETTINGS};
use crate::refusal::Refusal;
use crate::registers::{self as reg, span};

/// The registers of which settings fix every bit, signalling's apart.
const WHOLE_MAP: u64 = span(reg::MODE_5, 1)
    | span(reg::WORD, reg::WORD_BYTES)
    | span(reg::PHASE, 1)
    | span(reg::CONTRAST, reg::READ_ONLY - reg::CONTRAST);
/// Signalling's registers: every bit is fixed where there is some.
const SIGNAL_MAP: u64 = span(reg::SIGNAL_TOP, reg::SIGNAL_BYTES);

/// Refuses with 11 an unknown register that has a field's bits and bits of none,
/// at the lowest such field. Off fixes only the switches of signalling.
#[inline(always)]
pub(crate) fn check_parts(board: Board, s: &[i32; SETTINGS]) -> Result<(), Refusal> {
    board.demand_known(reg::MODE_0, 1, number::STANDARD)?;
    board.demand_known(reg::MODE_2, 1, number::SQUARE)?;
    board.demand_known(reg::MODE_1, 1, number::FOUR_TIMES)?;
    if s[at::SIGNALLING] == at::OFF {
        board.demand_known(reg::SIGNAL_TOP, 1, number::SIGNALLING)?;
    }
    Ok(())
}

/// The unknown registers that settings fix every bit of: they must be written.
#[inline(always)]
pub(crate) fn unknown_and_whole(known: u64, s: &[i32; SETTINGS]) -> u64 {
    let signal = if s[at::SIGNALLING] == at::OFF {
        0
    } else {
        SIGNAL_MAP
    };
    (WHOLE_MAP | signal) & !known
}
