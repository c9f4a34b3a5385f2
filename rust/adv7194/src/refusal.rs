//! Refusals.

use std::error::Error;
use std::fmt;

/// Why something is refused: the eleven rows of the table.
#[derive(Clone, Copy, Debug, PartialEq, Eq, Hash)]
#[repr(u8)]
pub enum Reason {
    /// 1: an image isn't 54 bytes.
    ImageLength = 1,
    /// 2: a bus address is odd or above 254.
    Address = 2,
    /// 3: a number or the limit is outside its range, the settings aren't 49
    /// numbers, there is no such transaction, or no pair of captions.
    OutOfRange = 3,
    /// 4: a code is reserved, a must-be-zero bit is set, or WSS or a caption byte
    /// breaks its odd count.
    Reserved = 4,
    /// 5: square pixel with 4x oversampling.
    SquareWithFourTimes = 5,
    /// 6: pedestal with PAL.
    PedestalWithPal = 6,
    /// 7: CGMS with PAL, WSS with NTSC, CGMS for neither field, or both at once.
    Signalling = 7,
    /// 8: an image's check bits or subcarrier word don't agree with its other
    /// fields.
    Disagrees = 8,
    /// 9: a plan's bytes break the packing or the bus rules.
    PlanBytes = 9,
    /// 10: the lent plan is shorter than the packed plan, or the lent data than the
    /// transaction's.
    PlanRoom = 10,
    /// 11: a register isn't known of which the settings fix only some bits, or one
    /// that is read.
    RegisterUnknown = 11,
}

impl Reason {
    /// Every reason, in the order of its number.
    pub const ALL: [Reason; 11] = [
        Reason::ImageLength,
        Reason::Address,
        Reason::OutOfRange,
        Reason::Reserved,
        Reason::SquareWithFourTimes,
        Reason::PedestalWithPal,
        Reason::Signalling,
        Reason::Disagrees,
        Reason::PlanBytes,
        Reason::PlanRoom,
        Reason::RegisterUnknown,
    ];

    /// Its number, 1 to 11.
    pub const fn number(self) -> u8 {
        self as u8
    }

    /// What it says.
    const fn text(self) -> &'static str {
        match self {
            Reason::ImageLength => "the image isn't 54 bytes",
            Reason::Address => "the bus address is odd or above 254",
            Reason::OutOfRange => "a number is outside its range",
            Reason::Reserved => "a code is reserved",
            Reason::SquareWithFourTimes => "square pixel with 4x oversampling",
            Reason::PedestalWithPal => "pedestal with PAL",
            Reason::Signalling => "signalling that can't be",
            Reason::Disagrees => "check bits or subcarrier word don't agree",
            Reason::PlanBytes => "the plan's bytes break the packing or the bus rules",
            Reason::PlanRoom => "the lent plan is too short",
            Reason::RegisterUnknown => "a register is not known",
        }
    }
}

/// A refusal: its reason, and the number of the field at fault (0 for none).
#[derive(Clone, Copy, Debug, PartialEq, Eq, Hash)]
pub struct Refusal {
    /// Why.
    pub reason: Reason,
    /// The field's number, 1 to 28, 29 for captions, or 0.
    pub field: u8,
}

impl fmt::Display for Refusal {
    fn fmt(&self, f: &mut fmt::Formatter<'_>) -> fmt::Result {
        let number = self.reason.number();
        write!(f, "refusal {number}: {}", self.reason.text())?;
        match self.field {
            0 => Ok(()),
            field => write!(f, " (field {field})"),
        }
    }
}

impl Error for Refusal {}

/// An answer's refusal, typed; 0 is none. The archive answers no number above 11.
pub(crate) fn check(refusal: u32, field: u32) -> Result<(), Refusal> {
    if refusal == 0 {
        return Ok(());
    }
    let reason = Reason::ALL[refusal as usize - 1];
    let field = field as u8;
    Err(Refusal { reason, field })
}
