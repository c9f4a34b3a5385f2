//! A board's registers, of which only some may be known.

use crate::ffi::PlayAnswer;
use crate::refusal::{self, Reason, Refusal};

/// Registers of a chip, and bytes of an image.
pub const REGISTERS: usize = 54;
/// The flags of a board whose every register is known.
pub const ALL_KNOWN: u64 = (1 << REGISTERS) - 1;

/// A board: what its chip's registers hold, and which of them are known.
///
/// ```
/// use adv7194::{Board, Reason, ALL_KNOWN};
///
/// let board = Board::known([0; 54]);
/// assert_eq!(board.flags, ALL_KNOWN);
///
/// // After a power dip only hue could be read.
/// let mut board = Board::unknown();
/// board.learn(0x20, 0x97);
/// assert!(board.knows(0x20) && !board.knows(0x21));
///
/// // Bytes of any length, known in full.
/// let refusal = Board::try_from(&[0; 53][..]).unwrap_err();
/// assert_eq!((refusal.reason, refusal.field), (Reason::ImageLength, 0));
/// ```
#[derive(Clone, Copy, Debug, PartialEq, Eq, Hash)]
pub struct Board {
    /// A byte for each register; that of a register that isn't known means nothing.
    pub bytes: [u8; REGISTERS],
    /// Bit r is set where register r is known. Bits past the last register are
    /// ignored, and kept.
    pub flags: u64,
}

impl Board {
    /// A board whose every register is known.
    pub const fn known(bytes: [u8; REGISTERS]) -> Board {
        let flags = ALL_KNOWN;
        Board { bytes, flags }
    }

    /// A board of which nothing is known.
    pub const fn unknown() -> Board {
        Board {
            bytes: [0; REGISTERS],
            flags: 0,
        }
    }

    /// Whether a register is known; none past the last one is.
    pub const fn knows(&self, register: u8) -> bool {
        let register = register as usize;
        register < REGISTERS && self.flags >> register & 1 == 1
    }

    /// Notes what a register holds, which is then known.
    ///
    /// # Panics
    ///
    /// Where there is no such register.
    pub fn learn(&mut self, register: u8, byte: u8) {
        self.bytes[usize::from(register)] = byte;
        self.flags |= 1 << register;
    }

    /// Takes the flags that a player answers, and says whether every byte was
    /// acknowledged.
    pub(crate) fn played(&mut self, answer: PlayAnswer) -> Result<bool, Refusal> {
        self.flags = answer.known;
        refusal::check(answer.refusal, answer.field)?;
        Ok(answer.acknowledged != 0)
    }
}

/// A board known in full, from its image.
impl TryFrom<&[u8]> for Board {
    type Error = Refusal;

    /// Refuses 1 where the image isn't 54 bytes.
    fn try_from(image: &[u8]) -> Result<Board, Refusal> {
        let refusal = Refusal {
            reason: Reason::ImageLength,
            field: 0,
        };
        image.try_into().map(Board::known).map_err(|_| refusal)
    }
}
