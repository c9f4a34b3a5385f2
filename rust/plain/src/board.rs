//! A board: a chip's registers, of which only some may be known.

use crate::refusal::{self, demand, Refusal};
use crate::registers::{span, REGISTERS};

/// The flags of a board whose every register is known.
pub const ALL_KNOWN: u64 = span(0, REGISTERS);

/// Registers with their flags: bit r is set where register r is known. The byte
/// of an unknown register means nothing, and flags past the last register are
/// no register's.
#[derive(Clone, Copy)]
pub(crate) struct Board<'a> {
    /// A byte for each register.
    pub(crate) registers: &'a [u8; REGISTERS],
    /// The flags.
    pub(crate) known: u64,
}

impl<'a> Board<'a> {
    /// The board of an image, or the refusal of one that isn't 54 bytes.
    #[inline(always)]
    pub(crate) fn of(image: &'a [u8], known: u64) -> Result<Board<'a>, Refusal> {
        let registers = image
            .try_into()
            .map_err(|_| Refusal::bare(refusal::IMAGE_LENGTH))?;
        Ok(Board { registers, known })
    }

    /// Refuses with 11 at `field` unless `count` registers from `first` are known.
    #[inline(always)]
    pub(crate) fn demand_known(
        self,
        first: usize,
        count: usize,
        field: u32,
    ) -> Result<(), Refusal> {
        let unknown = span(first, count) & !self.known;
        demand(unknown == 0, refusal::REGISTER_UNKNOWN, field)
    }
}
