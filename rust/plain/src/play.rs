//! Playing: what a chip holds after a packed plan, and what of it is known.

use crate::board::Board;
use crate::refusal::{self, check_address, Refusal};
use crate::registers::{span, BARRED_MAP, REGISTERS, WORD_MAP};
use crate::unpack::Unpacker;

/// What playing answers. After a refusal nobody acknowledged, and the flags are
/// as handed in.
#[derive(Clone, Copy, Debug, Default, PartialEq, Eq)]
pub struct PlayAnswer {
    /// The refusal, or 0.
    pub refusal: u32,
    /// The field at fault: always 0.
    pub field: u32,
    /// 1 if every byte was acknowledged, else 0.
    pub acknowledged: u32,
    /// Bit r is set where register r is then known.
    pub known: u64,
}

/// What came of a plan: whether every byte was acknowledged, and a map of the
/// registers that a byte was stored in.
pub(crate) struct Played {
    pub(crate) acknowledged: bool,
    pub(crate) stored: u64,
}

impl PlayAnswer {
    /// What came of a plan, or the refusal, with the flags handed in.
    pub(crate) fn of(played: Result<Played, Refusal>, known: u64) -> PlayAnswer {
        match played {
            Ok(played) => PlayAnswer {
                refusal: 0,
                field: 0,
                acknowledged: played.acknowledged as u32,
                known: known | played.stored,
            },
            Err(refused) => PlayAnswer {
                refusal: refused.refusal,
                field: refused.field,
                acknowledged: 0,
                known,
            },
        }
    }
}

/// Plays the packed `plan`, sent to the address `used`, on a chip holding `image`
/// in its `known` registers, whose own address is `own`. Checks 1, 2 for either
/// address, then 9.
pub fn play(image: &mut [u8], known: u64, used: u32, own: u32, plan: &[u8]) -> PlayAnswer {
    PlayAnswer::of(played(image, known, used, own, plan), known)
}

/// Playing, with its refusal as an error.
#[inline]
fn played(
    image: &mut [u8],
    known: u64,
    used: u32,
    own: u32,
    plan: &[u8],
) -> Result<Played, Refusal> {
    let mut after = *Board::of(image, known)?.registers;
    check_address(used)?;
    check_address(own)?;
    let touched = unpack(&mut after, plan).ok_or(Refusal::bare(refusal::PLAN_BYTES))?;
    if used != own {
        // A wrong address byte isn't acknowledged; without a transaction none is sent.
        return Ok(Played {
            acknowledged: touched == 0,
            stored: 0,
        });
    }
    image.copy_from_slice(&after);
    Ok(Played {
        acknowledged: true,
        stored: touched,
    })
}

/// Stores a plan's data and gives the registers that it touches, or nothing where
/// its bytes break the packing or the bus rules.
#[inline]
fn unpack(image: &mut [u8; REGISTERS], plan: &[u8]) -> Option<u64> {
    let mut unpacker = Unpacker::new(plan);
    let transactions = unpacker.head()?;
    let (mut touched, mut last_end) = (0, 0);
    for _ in 0..transactions {
        let start = unpacker.head()? as usize;
        let count = unpacker.head()? as usize;
        let end = start + count;
        let run = span(start, count);
        if count == 0 || start < last_end || end > REGISTERS || !keeps_rules(run) {
            return None;
        }
        unpacker.data(&mut image[start..end])?;
        touched |= run;
        last_end = end;
    }
    unpacker.is_done().then_some(touched)
}

/// Whether a transaction may touch exactly these registers.
#[inline(always)]
pub(crate) fn keeps_rules(touched: u64) -> bool {
    let word = touched & WORD_MAP;
    touched & BARRED_MAP == 0 && (word == 0 || word == WORD_MAP)
}
