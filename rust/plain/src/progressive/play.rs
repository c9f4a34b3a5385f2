//! Playing: what a chip holds after a packed plan.

use super::registers::{INTERPOLATION_BIT, MODE_3, MODE_6, PREPARING, REGISTERS, RESERVED_MAP};
use super::{image_of, Image};
use crate::refusal::{self, check_address, Refusal};
use crate::registers::span;
use crate::unpack::Unpacker;

/// What playing answers.
#[derive(Clone, Copy, Debug, Default, PartialEq, Eq)]
pub struct PlayAnswer {
    /// The refusal, or 0.
    pub refusal: u32,
    /// The field at fault: always 0.
    pub field: u32,
    /// 1 if every byte was acknowledged, else 0.
    pub acknowledged: u32,
}

/// Plays the packed `plan`, sent to the address `used`, on a chip holding `image`
/// whose own address is `own`. Checks 1, 2 for either address, then 9.
pub fn play(image: &mut [u8], used: u32, own: u32, plan: &[u8]) -> PlayAnswer {
    match played(image, used, own, plan) {
        Ok(acknowledged) => PlayAnswer {
            acknowledged: acknowledged.into(),
            ..PlayAnswer::default()
        },
        Err(refused) => PlayAnswer {
            refusal: refused.refusal,
            field: refused.field,
            ..PlayAnswer::default()
        },
    }
}

/// Playing, with its refusal as an error: whether every byte was acknowledged.
fn played(image: &mut [u8], used: u32, own: u32, plan: &[u8]) -> Result<bool, Refusal> {
    let mut after = *image_of(image)?;
    check_address(used)?;
    check_address(own)?;
    let transactions = unpack(&mut after, plan).ok_or(Refusal::bare(refusal::PLAN_BYTES))?;
    if used != own {
        // A wrong address byte isn't acknowledged; without a transaction none is sent.
        return Ok(transactions == 0);
    }
    image.copy_from_slice(&after);
    Ok(true)
}

/// Stores a plan's data and gives its transactions; nothing where its bytes break
/// the packing, touch a register that takes no data, or turn interpolation on or off
/// where no earlier transaction of the plan wrote 3E to 09, untouched since.
fn unpack(image: &mut Image, plan: &[u8]) -> Option<u32> {
    let mut unpacker = Unpacker::new(plan);
    let transactions = unpacker.head()?;
    let mut prepared = false;
    for _ in 0..transactions {
        let start = unpacker.head()? as usize;
        let count = unpacker.head()? as usize;
        let (end, touched) = (start + count, span(start, count));
        if count == 0 || end > REGISTERS || touched & RESERVED_MAP != 0 {
            return None;
        }
        let before = image[MODE_3];
        unpacker.data(&mut image[start..end])?;
        let flips = (before ^ image[MODE_3]) & INTERPOLATION_BIT != 0;
        if flips && !prepared {
            return None;
        }
        if touched & span(MODE_6, 1) != 0 {
            prepared = image[MODE_6] == PREPARING;
        }
    }
    unpacker.is_done().then_some(transactions)
}
