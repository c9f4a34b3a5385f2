//! Unpacking: the bits of a packed plan, one field after the other.

use crate::pack::{shift, BYTE_BITS, HEAD_BITS};

/// Where the next bits come from.
pub(crate) struct Unpacker<'a> {
    // The bytes not yet taken.
    rest: &'a [u8],
    // The bits taken out of bytes but not yet given, lowest last.
    pending: u64,
    // How many bits are pending.
    held: u32,
}

impl<'a> Unpacker<'a> {
    /// Starts at the first bit.
    #[inline(always)]
    pub(crate) fn new(plan: &'a [u8]) -> Unpacker<'a> {
        Unpacker {
            rest: plan,
            pending: 0,
            held: 0,
        }
    }

    /// Takes six bits.
    #[inline(always)]
    pub(crate) fn head(&mut self) -> Option<u32> {
        if self.held < HEAD_BITS {
            let (&byte, rest) = self.rest.split_first()?;
            self.rest = rest;
            self.pending = self.pending << BYTE_BITS | byte as u64;
            self.held += BYTE_BITS;
        }
        self.held -= HEAD_BITS;
        Some((self.pending >> self.held) as u32 & ((1 << HEAD_BITS) - 1))
    }

    /// Takes a byte for each of `registers`.
    #[inline(always)]
    pub(crate) fn data(&mut self, registers: &mut [u8]) -> Option<()> {
        let (bytes, rest) = self.rest.split_at_checked(registers.len())?;
        self.rest = rest;
        shift(registers, bytes, &mut self.pending, self.held);
        Some(())
    }

    /// Whether nothing is left but zero bits that fill the last byte.
    #[inline(always)]
    pub(crate) fn is_done(&self) -> bool {
        let fill = self.pending & ((1 << self.held) - 1);
        self.rest.is_empty() && self.held < BYTE_BITS && fill == 0
    }
}
