//! Codings of single numbers, and the way back to the setting nearest zero.

/// Codes for one whole of contrast or scale.
const ONE: u32 = 128;
/// Thousandths in one whole.
const THOUSAND: u32 = 1000;
/// Codes in the whole range of hue.
const HUE_CODES: i32 = 256;
/// Tenths of a degree in the whole range of hue.
const HUE_RANGE: i32 = 450;
/// The code of no hue.
const HUE_ZERO: i32 = 128;
/// Brightness codes for one tenth of an IRE, times ten million.
const BRIGHTNESS_SLOPE: i32 = 2_015_631;
/// Ten million.
const BRIGHTNESS_PARTS: i32 = 10_000_000;
/// The top bit of a seven-bit code.
const SEVEN_BIT_SIGN: i32 = 0x40;
/// One more than the largest seven-bit code.
const SEVEN_BIT_CODES: i32 = 0x80;
/// The code of no sharpness.
const SHARPNESS_ZERO: i32 = 6;

/// Contrast or scale: the whole number nearest to 128 times it over 1000.
#[inline(always)]
pub fn scale_code(thousandths: i32) -> u8 {
    ((2 * ONE * thousandths as u32 + THOUSAND) / (2 * THOUSAND)) as u8
}

/// The least contrast or scale that has this code.
#[inline(always)]
pub fn scale_of(code: u8) -> i32 {
    let doubled = (2 * code as u32).saturating_sub(1);
    (doubled * THOUSAND).div_ceil(2 * ONE) as i32
}

/// Hue: 128 plus the whole number nearest to 256t/450. Counted from the
/// lowest hue, where the 128 is exactly the start.
#[inline(always)]
pub fn hue_code(tenths: i32) -> u8 {
    let up = (tenths + HUE_RANGE / 2) as u32;
    ((2 * HUE_CODES as u32 * up + HUE_RANGE as u32) / (2 * HUE_RANGE as u32)) as u8
}

/// The hue nearest zero that has this code.
#[inline(always)]
pub fn hue_of(code: u8) -> i32 {
    let away = code as i32 - HUE_ZERO;
    let doubled = (2 * away.unsigned_abs()).saturating_sub(1);
    let tenths = (doubled * HUE_RANGE as u32).div_ceil(2 * HUE_CODES as u32) as i32;
    tenths * away.signum()
}

/// Brightness: the nearest whole number, then seven-bit two's complement.
#[inline(always)]
pub fn brightness_code(tenths: i32) -> u8 {
    let half = BRIGHTNESS_PARTS / 2 * tenths.signum();
    ((tenths * BRIGHTNESS_SLOPE + half) / BRIGHTNESS_PARTS) as u8 & (SEVEN_BIT_CODES - 1) as u8
}

/// The brightness nearest zero that has this seven-bit code.
#[inline(always)]
pub fn brightness_of(code: u8) -> i32 {
    let code = code as i32;
    let steps = if code < SEVEN_BIT_SIGN {
        code
    } else {
        code - SEVEN_BIT_CODES
    };
    let doubled = (2 * steps.unsigned_abs()).saturating_sub(1);
    let tenths = (doubled * BRIGHTNESS_PARTS as u32).div_ceil(2 * BRIGHTNESS_SLOPE as u32);
    tenths as i32 * steps.signum()
}

/// Sharpness: the step plus 6.
#[inline(always)]
pub fn sharpness_code(step: i32) -> u8 {
    (step + SHARPNESS_ZERO) as u8
}

/// The sharpness that has this code.
#[inline(always)]
pub fn sharpness_of(code: u8) -> i32 {
    code as i32 - SHARPNESS_ZERO
}
