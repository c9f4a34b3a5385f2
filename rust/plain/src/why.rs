//! Why a register is sent.

use crate::board::Board;
use crate::compare::{bits_in, LAST_FIELD};
use crate::needs::Needs;
use crate::refusal::Refusal;
use crate::registers::{must_be_zero, REGISTERS, WORD_MAP};

/// Why a register is sent, or that it isn't. Of several reasons the first one here
/// is given.
#[derive(Clone, Copy, Debug, PartialEq, Eq)]
pub enum Reason {
    /// It isn't sent.
    NotSent,
    /// It wasn't known.
    Unknown,
    /// Bits of this field change in it, must-be-zero ones apart: the lowest such field.
    Field(u32),
    /// A must-be-zero bit was set in it.
    MustBeZero,
    /// It is in the subcarrier word, and another register of that is needed.
    Companion,
    /// It lies between these needed registers, the nearest ones.
    Bridge(u32, u32),
}

/// What asking why answers. After a refusal the last three are 0.
#[derive(Clone, Copy, Debug, Default, PartialEq, Eq)]
pub struct WhyAnswer {
    /// The refusal, or 0.
    pub refusal: u32,
    /// The field at fault, or 0.
    pub field: u32,
    /// The reason: 0 not sent, 1 unknown, 2 a field, 3 must be zero, 4 a companion,
    /// 5 a bridge.
    pub reason: u32,
    /// The field that changes, or the needed register below a bridge; else 0.
    pub first: u32,
    /// The needed register above a bridge; else 0.
    pub second: u32,
}

impl WhyAnswer {
    /// What a reason answers.
    fn given(reason: Reason) -> WhyAnswer {
        let (reason, first, second) = match reason {
            Reason::NotSent => (0, 0, 0),
            Reason::Unknown => (1, 0, 0),
            Reason::Field(field) => (2, field, 0),
            Reason::MustBeZero => (3, 0, 0),
            Reason::Companion => (4, 0, 0),
            Reason::Bridge(below, above) => (5, below, above),
        };
        WhyAnswer {
            reason,
            first,
            second,
            ..WhyAnswer::default()
        }
    }

    /// What a refusal answers.
    fn refused(refused: Refusal) -> WhyAnswer {
        WhyAnswer {
            refusal: refused.refusal,
            field: refused.field,
            ..WhyAnswer::default()
        }
    }
}

/// Why the plan that brings a board to settings has a register, as numbers.
pub fn why(image: &[u8], known: u64, settings: &[i32], limit: u32, subaddress: u32) -> WhyAnswer {
    let given = reason(image, known, settings, limit, subaddress);
    given.map_or_else(WhyAnswer::refused, WhyAnswer::given)
}

/// Why the plan that brings a board to settings has a register. Checks as planning
/// does, without an address and without room; a register that the chip lacks is not
/// sent.
pub fn reason(
    image: &[u8],
    known: u64,
    settings: &[i32],
    limit: u32,
    subaddress: u32,
) -> Result<Reason, Refusal> {
    let board = Board::of(image, known)?;
    let needs = Needs::of(board, settings, limit)?;
    let register = subaddress as usize;
    let sent = register < REGISTERS && needs.list.written >> register & 1 == 1;
    Ok(if sent {
        reason_of(board, &needs, register)
    } else {
        Reason::NotSent
    })
}

/// Why a register that is sent is sent.
fn reason_of(board: Board, needs: &Needs, register: usize) -> Reason {
    let bit = 1 << register;
    if board.known & bit == 0 {
        return Reason::Unknown;
    }
    let (found, zeros) = (board.registers[register], must_be_zero(register));
    let changed = (found ^ needs.wanted[register]) & !zeros;
    let changes = |&field: &u32| changed & bits_in(register, field) != 0;
    if let Some(field) = (1..=LAST_FIELD).find(changes) {
        return Reason::Field(field);
    }
    if found & zeros != 0 {
        return Reason::MustBeZero;
    }
    if WORD_MAP & bit != 0 && needs.needed & WORD_MAP & !bit != 0 {
        return Reason::Companion;
    }
    let lower = bit - 1;
    let below = needs.needed & lower;
    let above = needs.needed & !(lower | bit);
    Reason::Bridge(below.ilog2(), above.trailing_zeros())
}
