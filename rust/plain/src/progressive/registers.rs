//! The registers of progressive-scan mode.

use crate::registers::span;

/// Registers of the chip, 00 to 27, and bytes of an image.
pub const REGISTERS: usize = 40;

/// Output and input standards.
pub const MODE_0: usize = 0x00;
/// Pixel data, test patterns and filters.
pub const MODE_1: usize = 0x01;
/// Delays and CGMS.
pub const MODE_2: usize = 0x02;
/// DACs and interpolation.
pub const MODE_3: usize = 0x03;
/// The bit of interpolation, MR36.
pub const INTERPOLATION_BIT: u8 = 0x40;
/// Timing reset.
pub const MODE_4: usize = 0x04;
/// RGB, gamma and the adaptive filter.
pub const MODE_5: usize = 0x05;
/// The test pattern's Y.
pub const COLOUR_Y: usize = 0x06;
/// The test pattern's Cr.
pub const COLOUR_CR: usize = 0x07;
/// The test pattern's Cb.
pub const COLOUR_CB: usize = 0x08;
/// What is written before interpolation is turned on or off.
pub const MODE_6: usize = 0x09;
/// The byte that Mode Register 6 must be written with before that.
pub const PREPARING: u8 = 0x3E;

/// The first of the registers that are reserved.
pub const RESERVED: usize = 0x0A;
/// How many are.
pub const RESERVED_COUNT: usize = 6;
/// The registers that no data may go to.
pub const RESERVED_MAP: u64 = span(RESERVED, RESERVED_COUNT);

/// Gains of the sharpness filter.
pub const FILTER_GAIN: usize = 0x10;
/// The first of the three registers of CGMS, its lowest bits.
pub const CGMS: usize = 0x11;
/// The first byte of gamma curve A.
pub const CURVE_A: usize = 0x14;
/// The first byte of gamma curve B.
pub const CURVE_B: usize = 0x1B;
/// Bytes of a curve.
pub const CURVE_BYTES: usize = 7;
/// The first gain of the adaptive filter.
pub const ADAPTIVE_GAIN_1: usize = 0x22;
/// The second one.
pub const ADAPTIVE_GAIN_2: usize = 0x23;
/// The third one.
pub const ADAPTIVE_GAIN_3: usize = 0x24;
/// The adaptive filter's threshold for small edges.
pub const THRESHOLD_A: usize = 0x25;
/// The one for medium edges.
pub const THRESHOLD_B: usize = 0x26;
/// The one for large edges.
pub const THRESHOLD_C: usize = 0x27;
