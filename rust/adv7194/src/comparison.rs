//! Two images side by side.

use crate::ffi;
use crate::refusal::{self, Refusal};
use std::iter::FusedIterator;

/// What differs between two images. Made by [`compare`].
#[derive(Clone, Copy, Debug, PartialEq, Eq, Hash)]
pub struct Comparison {
    readable: bool,
    // Bit f for field f, bit r for register r.
    fields: u32,
    registers: u64,
}

impl Comparison {
    /// Whether [`read`](crate::read) accepts both images, known in full, so that
    /// both have settings to show.
    pub const fn readable(&self) -> bool {
        self.readable
    }

    /// Whether nothing differs: the images are equal in every register but 34.
    pub const fn is_equal(&self) -> bool {
        self.fields == 0 && self.registers == 0
    }

    /// The numbers of the fields that differ, 1 to 28, in order.
    pub fn fields(&self) -> Differing {
        Differing(self.fields.into())
    }

    /// The registers that differ in bits outside all fields, in order. Register
    /// 34 is never among them.
    pub fn registers(&self) -> Differing {
        Differing(self.registers)
    }
}

/// Numbers of fields or registers, in order. Made by [`Comparison::fields`] and
/// [`Comparison::registers`].
#[derive(Clone, Debug)]
pub struct Differing(u64);

impl Iterator for Differing {
    type Item = u8;

    fn next(&mut self) -> Option<u8> {
        if self.0 == 0 {
            return None;
        }
        let lowest = self.0.trailing_zeros() as u8;
        self.0 &= self.0 - 1;
        Some(lowest)
    }

    fn size_hint(&self) -> (usize, Option<usize>) {
        let left = self.0.count_ones() as usize;
        (left, Some(left))
    }
}

impl ExactSizeIterator for Differing {}

impl FusedIterator for Differing {}

/// Compares two images. A field differs where any of its bits does; must-be-zero
/// bits count to their field, and all of registers 19 to 1B to field 11.
///
/// ```
/// use adv7194::{compare, Reason};
///
/// let a = [0; 54];
/// let mut b = a;
/// b[0x20] = 0x97; // hue
/// b[0x23] = 0x11; // both DNR gains
/// b[0x34] = 0xFF; // read-only
/// b[0x35] = 0x01; // outside all fields
/// let comparison = compare(&a, &b)?;
/// assert_eq!(comparison.fields().collect::<Vec<_>>(), [15, 18, 19]);
/// assert_eq!(comparison.registers().collect::<Vec<_>>(), [0x35]);
/// assert!(!comparison.readable());
/// assert!(compare(&a, &a)?.is_equal());
///
/// let refusal = compare(&a, &[0; 55]).unwrap_err();
/// assert_eq!((refusal.reason, refusal.field), (Reason::ImageLength, 0));
/// # Ok::<(), adv7194::Refusal>(())
/// ```
pub fn compare(a: &[u8], b: &[u8]) -> Result<Comparison, Refusal> {
    let answer = ffi::compare(a, b);
    refusal::check(answer.refusal, answer.field)?;
    Ok(Comparison {
        readable: answer.readable != 0,
        fields: answer.fields,
        registers: answer.registers,
    })
}
