//! Refusals.

use std::error::Error;
use std::fmt;

/// Why something is refused: the rows of the table that this chip has.
#[derive(Clone, Copy, Debug, PartialEq, Eq, Hash)]
#[repr(u8)]
pub enum Reason {
    /// 1: an image isn't 40 bytes.
    ImageLength = 1,
    /// 2: a bus address is odd or above 254.
    Address = 2,
    /// 3: a number is outside its range, the settings aren't 58 numbers, or there
    /// is no such transaction.
    OutOfRange = 3,
    /// 4: a code is reserved, or a must-be-zero bit is set.
    Reserved = 4,
    /// 9: a plan's bytes break the packing, the bus rule or the order of the 3E.
    PlanBytes = 9,
    /// 10: the lent plan is shorter than the packed plan, or the lent data than the
    /// transaction's.
    PlanRoom = 10,
}

impl Reason {
    /// Every reason, in the order of its number.
    pub const ALL: [Reason; 6] = [
        Reason::ImageLength,
        Reason::Address,
        Reason::OutOfRange,
        Reason::Reserved,
        Reason::PlanBytes,
        Reason::PlanRoom,
    ];

    /// Its number: 1 to 4, 9 or 10.
    pub const fn number(self) -> u8 {
        self as u8
    }

    /// What it says.
    const fn text(self) -> &'static str {
        match self {
            Reason::ImageLength => "the image isn't 40 bytes",
            Reason::Address => "the bus address is odd or above 254",
            Reason::OutOfRange => "a number is outside its range",
            Reason::Reserved => "a code is reserved",
            Reason::PlanBytes => "the plan's bytes break the packing or the bus rules",
            Reason::PlanRoom => "the lent plan is too short",
        }
    }
}

/// A refusal: its reason, and the number of the field at fault (0 for none).
#[derive(Clone, Copy, Debug, PartialEq, Eq, Hash)]
pub struct Refusal {
    /// Why.
    pub reason: Reason,
    /// The field's number, 1 to 52, or 0.
    pub field: u8,
}

impl fmt::Display for Refusal {
    fn fmt(&self, f: &mut fmt::Formatter<'_>) -> fmt::Result {
        let number = self.reason.number();
        write!(f, "refusal {number}: {}", self.reason.text())?;
        match self.field {
            0 => Ok(()),
            field => write!(f, " (field {field})"),
        }
    }
}

impl Error for Refusal {}

/// An answer's refusal, typed; 0 is none. The archive answers no other number
/// than those of [`Reason`].
pub(crate) fn check(refusal: u32, field: u32) -> Result<(), Refusal> {
    if refusal == 0 {
        return Ok(());
    }
    let mut reasons = Reason::ALL.into_iter();
    let reason = reasons.find(|reason| u32::from(reason.number()) == refusal);
    let reason = reason.expect("the archive's refusals have a typed form");
    let field = field as u8;
    Err(Refusal { reason, field })
}
