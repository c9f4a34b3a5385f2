//! Refusals: a number of the table and the field at fault.

use crate::cut::LEAST_LIMIT;
use crate::fields::number;
use crate::registers::REGISTERS;

/// An image isn't a byte for each register: 54, or 40 on the ADV7195.
pub const IMAGE_LENGTH: u32 = 1;
/// A bus address is odd or above 254.
pub const ADDRESS: u32 = 2;
/// A number or the limit is outside its range, there is no such transaction, or no
/// pair of captions.
pub const RANGE: u32 = 3;
/// A code is reserved, a must-be-zero bit is set, or WSS or a caption byte
/// breaks its odd count.
pub const RESERVED: u32 = 4;
/// Square pixel with 4x.
pub const SQUARE_FOUR_TIMES: u32 = 5;
/// Pedestal with PAL.
pub const PEDESTAL_PAL: u32 = 6;
/// Signalling that the standard lacks, CGMS for neither field, or both at once.
pub const SIGNALLING: u32 = 7;
/// Check bits or subcarrier word that don't agree with the other fields.
pub const DISAGREES: u32 = 8;
/// A plan's bytes break the packing or the bus rules.
pub const PLAN_BYTES: u32 = 9;
/// The lent plan is shorter than the packed plan, or the lent data than the
/// transaction's.
pub const PLAN_ROOM: u32 = 10;
/// A register isn't known: one that a setting fixes in part, or one that is read.
pub const REGISTER_UNKNOWN: u32 = 11;

/// The highest bus address.
const LAST_ADDRESS: u32 = 254;
/// The highest limit on a transaction's data, which is none.
pub const NO_LIMIT: u32 = REGISTERS as u32;

/// Why something is refused.
#[derive(Clone, Copy, Debug, PartialEq, Eq)]
pub struct Refusal {
    /// The row of the table.
    pub refusal: u32,
    /// The field at fault, or 0.
    pub field: u32,
}

impl Refusal {
    /// A refusal where no field is at fault.
    pub const fn bare(refusal: u32) -> Refusal {
        Refusal {
            refusal,
            field: number::NONE,
        }
    }
}

/// Refuses with `refusal` at `field` unless `holds`.
#[inline(always)]
pub(crate) fn demand(holds: bool, refusal: u32, field: u32) -> Result<(), Refusal> {
    if holds {
        Ok(())
    } else {
        Err(Refusal { refusal, field })
    }
}

/// Refuses an address that is odd or above 254.
#[inline(always)]
pub(crate) fn check_address(address: u32) -> Result<(), Refusal> {
    let even = address & 1 == 0;
    demand(even && address <= LAST_ADDRESS, ADDRESS, number::NONE)
}

/// Refuses a limit on a transaction's data outside 4 to 54.
#[inline(always)]
pub(crate) fn check_limit(limit: u32) -> Result<(), Refusal> {
    let right = (LEAST_LIMIT..=NO_LIMIT).contains(&limit);
    demand(right, RANGE, number::NONE)
}
