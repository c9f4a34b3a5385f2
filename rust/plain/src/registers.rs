//! The chip's registers, and the bits of each field in them.

/// Registers of the chip, and bytes of an image.
pub const REGISTERS: usize = 54;

/// The standard, in the two lowest bits.
pub const MODE_0: usize = 0x00;
/// The bits of the standard.
pub const STANDARD_BITS: u8 = 0x03;

/// 4x oversampling.
pub const MODE_1: usize = 0x01;
/// The bit of 4x oversampling.
pub const FOUR_TIMES_BIT: u8 = 0x40;

/// Pedestal and square pixel.
pub const MODE_2: usize = 0x02;
/// The bit of the pedestal.
pub const PEDESTAL_BIT: u8 = 0x08;
/// The bit of square pixel.
pub const SQUARE_BIT: u8 = 0x10;

/// Levels, RGB sync and the clamp.
pub const MODE_5: usize = 0x05;
/// The bit of the Y level.
pub const Y_LEVEL_BIT: u8 = 0x01;
/// The lowest bit of the UV level.
pub const UV_LEVEL_SHIFT: u32 = 1;
/// The bits of the UV level, or of the clamp delay's magnitude, moved down.
pub const TWO_BITS: u8 = 0x03;
/// The bit of RGB sync.
pub const RGB_SYNC_BIT: u8 = 0x08;
/// The lowest bit of the clamp delay's magnitude.
pub const CLAMP_SHIFT: u32 = 4;
/// The bit of a negative clamp delay.
pub const CLAMP_NEGATIVE_BIT: u8 = 0x40;
/// The bit of the clamp in the back porch.
pub const BACK_PORCH_BIT: u8 = 0x80;

/// The first register of the subcarrier word, its lowest byte.
pub const WORD: usize = 0x0C;
/// Bytes of the subcarrier word.
pub const WORD_BYTES: usize = 4;
/// The subcarrier phase.
pub const PHASE: usize = 0x10;
/// The first caption register.
pub const CAPTIONS: usize = 0x11;
/// Caption registers.
pub const CAPTION_BYTES: usize = 4;

/// Signalling: the switches, and the last four check bits.
pub const SIGNAL_TOP: usize = 0x19;
/// Signalling: bits 8 and up.
pub const SIGNAL_MIDDLE: usize = 0x1A;
/// Signalling: bits 0 to 7.
pub const SIGNAL_LOW: usize = 0x1B;
/// Registers of signalling.
pub const SIGNAL_BYTES: usize = 3;

/// Contrast.
pub const CONTRAST: usize = 0x1D;
/// U scale.
pub const U_SCALE: usize = 0x1E;
/// V scale.
pub const V_SCALE: usize = 0x1F;
/// Hue.
pub const HUE: usize = 0x20;
/// Brightness, seven bits; the eighth must be zero.
pub const BRIGHTNESS: usize = 0x21;
/// The bits of the brightness.
pub const BRIGHTNESS_BITS: u8 = 0x7F;
/// Sharpness, four bits; the other four must be zero.
pub const SHARPNESS: usize = 0x22;
/// The lower four bits of a register.
pub const LOW_BITS: u8 = 0x0F;
/// The lowest of the upper four bits.
pub const HIGH_SHIFT: u32 = 4;

/// DNR border gain below, data gain above.
pub const DNR_GAINS: usize = 0x23;
/// DNR threshold, border area and block size.
pub const DNR_SIZES: usize = 0x24;
/// The bits of the threshold.
pub const THRESHOLD_BITS: u8 = 0x3F;
/// The bit of the border area.
pub const BORDER_AREA_BIT: u8 = 0x40;
/// The bit of the block size.
pub const BLOCK_SIZE_BIT: u8 = 0x80;
/// DNR input, mode and block offset.
pub const DNR_MODES: usize = 0x25;
/// The bits of the DNR input.
pub const DNR_INPUT_BITS: u8 = 0x07;
/// The bit of the DNR mode.
pub const DNR_MODE_BIT: u8 = 0x08;

/// The first byte of gamma curve A.
pub const CURVE_A: usize = 0x26;
/// The first byte of gamma curve B.
pub const CURVE_B: usize = 0x2D;
/// Bytes of a curve.
pub const CURVE_BYTES: usize = 7;

/// A register's bits that must be zero, whatever the settings.
pub const fn must_be_zero(register: usize) -> u8 {
    match register {
        BRIGHTNESS => !BRIGHTNESS_BITS,
        SHARPNESS => !LOW_BITS,
        _ => 0,
    }
}

/// The register that can only be read.
pub const READ_ONLY: usize = 0x34;

/// A map with one bit set for each of `count` registers from `first`.
pub const fn span(first: usize, count: usize) -> u64 {
    ((1 << count) - 1) << first
}

/// The registers of the subcarrier word: written together or not at all.
pub const WORD_MAP: u64 = span(WORD, WORD_BYTES);
/// The registers that no transaction may touch.
pub const BARRED_MAP: u64 = span(CAPTIONS, CAPTION_BYTES) | span(READ_ONLY, 1);
