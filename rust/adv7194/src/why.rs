//! Why a register is sent.

use crate::board::Board;
use crate::ffi;
use crate::refusal::{self, Refusal};
use crate::settings::Settings;
use std::fmt;

/// Why a plan writes a register, or that it doesn't. Of those that are true, the
/// first. Made by [`why`].
#[derive(Clone, Copy, Debug, PartialEq, Eq, Hash)]
pub enum Why {
    /// The plan doesn't write it.
    NotSent,
    /// It wasn't known.
    Unknown,
    /// Bits of a field change in it, must-be-zero bits apart.
    FieldChanged {
        /// The lowest such field's number, 1 to 28.
        field: u8,
    },
    /// A must-be-zero bit was set in it.
    MustBeZero,
    /// It is in the subcarrier word, of which another register is needed.
    Companion,
    /// It lies between needed registers in one transaction.
    Bridge {
        /// The needed register next below.
        below: u8,
        /// The needed register next above.
        above: u8,
    },
}

impl Why {
    /// What the archive answers. It answers no reason above 5.
    fn of(answer: ffi::WhyAnswer) -> Why {
        let (first, second) = (answer.first as u8, answer.second as u8);
        match answer.reason {
            0 => Why::NotSent,
            1 => Why::Unknown,
            2 => Why::FieldChanged { field: first },
            3 => Why::MustBeZero,
            4 => Why::Companion,
            _ => Why::Bridge {
                below: first,
                above: second,
            },
        }
    }
}

impl fmt::Display for Why {
    fn fmt(&self, f: &mut fmt::Formatter<'_>) -> fmt::Result {
        match self {
            Why::NotSent => write!(f, "not sent"),
            Why::Unknown => write!(f, "not known"),
            Why::FieldChanged { field } => write!(f, "field {field} changed"),
            Why::MustBeZero => write!(f, "must be zero"),
            Why::Companion => write!(f, "sent with the subcarrier word"),
            Why::Bridge { below, above } => write!(f, "between {below:02X} and {above:02X}"),
        }
    }
}

/// Says why the plan that [`plan`](crate::plan) makes of `board` and `settings` with
/// this `limit` writes a register. It is refused as planning is; there is no address
/// and no room to be refused.
///
/// ```
/// use adv7194::{why, Board, Reason, Settings, Why, NO_LIMIT};
///
/// let mut board = Board::known([0; 54]);
/// let settings = Settings::house();
/// let of = |board: &Board, register| why(board, &settings, NO_LIMIT, register);
/// assert_eq!(of(&board, 0x20)?, Why::FieldChanged { field: 15 });
/// assert_eq!(of(&board, 0x21)?, Why::Bridge { below: 0x20, above: 0x22 });
/// assert_eq!(of(&board, 0x35)?, Why::NotSent);
///
/// board.bytes[0x21] = 0x80;
/// assert_eq!(of(&board, 0x21)?, Why::MustBeZero);
/// board.flags &= !(1 << 0x21);
/// assert_eq!(of(&board, 0x21)?, Why::Unknown);
/// assert_eq!(of(&board, 0x21)?.to_string(), "not known");
///
/// let refusal = why(&board, &settings, 3, 0x21).unwrap_err();
/// assert_eq!((refusal.reason, refusal.field), (Reason::OutOfRange, 0));
/// # Ok::<(), adv7194::Refusal>(())
/// ```
pub fn why(board: &Board, settings: &Settings, limit: u32, register: u8) -> Result<Why, Refusal> {
    why_numbers(board, &settings.to_numbers(), limit, register.into())
}

/// The same with settings as numbers, of any length and any value, and any number for
/// the register.
///
/// ```
/// use adv7194::{why_numbers, Board, Reason, Settings, Why, NO_LIMIT};
///
/// let board = Board::known([0; 54]);
/// let numbers = Settings::house().to_numbers();
/// assert_eq!(why_numbers(&board, &numbers, NO_LIMIT, 0x120), Ok(Why::NotSent));
/// let refusal = why_numbers(&board, &[0; 48], NO_LIMIT, 0x20).unwrap_err();
/// assert_eq!((refusal.reason, refusal.field), (Reason::OutOfRange, 0));
/// ```
pub fn why_numbers(
    board: &Board,
    settings: &[i32],
    limit: u32,
    register: u32,
) -> Result<Why, Refusal> {
    let answer = ffi::why(&board.bytes, board.flags, settings, limit, register);
    refusal::check(answer.refusal, answer.field)?;
    Ok(Why::of(answer))
}
