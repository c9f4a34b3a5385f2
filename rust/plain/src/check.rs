//! Checking the settings' fields, in their order.

use crate::fields::{self as at, number, SETTINGS};
use crate::gamma::LARGEST;
use crate::refusal::{self, demand, Refusal};
use crate::registers::CURVE_BYTES;
use crate::signal::{self, LAST_PAYLOAD};

/// The numbers of the settings.
type Numbers = [i32; SETTINGS];

/// The largest number of two bits.
const LAST_OF_TWO_BITS: i32 = 3;
/// The largest UV level; the next is reserved.
const LAST_UV: i32 = 2;
/// The largest magnitude of the clamp delay.
const LAST_DELAY: i32 = 3;
/// The largest byte.
const LAST_BYTE: i32 = 255;
/// The largest contrast.
const LAST_CONTRAST: i32 = 1500;
/// The largest scale.
const LAST_SCALE: i32 = 1996;
/// The lowest and the highest hue.
const HUES: (i32, i32) = (-225, 224);
/// The lowest and the highest brightness.
const BRIGHTNESSES: (i32, i32) = (-75, 150);
/// The largest magnitude of sharpness.
const LAST_SHARPNESS: i32 = 6;
/// The largest DNR gain.
const LAST_GAIN: i32 = 8;
/// The largest number of four bits.
const LAST_OF_FOUR_BITS: i32 = 15;
/// The largest DNR threshold.
const LAST_THRESHOLD: i32 = 63;
/// The first and the last DNR input.
const INPUTS: (i32, i32) = (1, 4);
/// The largest number of three bits.
const LAST_OF_THREE_BITS: i32 = 7;

/// Checks all settings: another length than 49 first, then the fields in order.
pub fn check(settings: &[i32]) -> Result<(), Refusal> {
    check_fields(numbers_of(settings)?)
}

/// The 49 numbers, or the refusal of another length.
#[inline(always)]
pub(crate) fn numbers_of(settings: &[i32]) -> Result<&Numbers, Refusal> {
    settings
        .try_into()
        .map_err(|_| Refusal::bare(refusal::RANGE))
}

/// Checks fields 1 to 27.
#[inline]
pub(crate) fn check_fields(s: &Numbers) -> Result<(), Refusal> {
    check_modes(s)?;
    check_signalling(s)?;
    check_picture(s)?;
    check_dnr(s)?;
    check_curve(s, at::CURVE_A, number::CURVE_A)?;
    check_curve(s, at::CURVE_B, number::CURVE_B)
}

/// Demands a number from `low` to `high`.
#[inline(always)]
fn within(value: i32, low: i32, high: i32, field: u32) -> Result<(), Refusal> {
    demand((low..=high).contains(&value), refusal::RANGE, field)
}

/// Demands a yes or a no.
#[inline(always)]
fn yes_or_no(value: i32, field: u32) -> Result<(), Refusal> {
    within(value, 0, 1, field)
}

/// Demands a number from `low` to `high`; 0 to `last` are codes, the others of
/// them reserved.
#[inline(always)]
fn code(value: i32, low: i32, high: i32, last: i32, field: u32) -> Result<(), Refusal> {
    if (low..=high).contains(&value) {
        return Ok(());
    }
    within(value, 0, last, field)?;
    demand(false, refusal::RESERVED, field)
}

/// Checks fields 1 to 10.
#[inline(always)]
fn check_modes(s: &Numbers) -> Result<(), Refusal> {
    code(
        s[at::STANDARD],
        at::NTSC,
        at::PAL,
        LAST_OF_TWO_BITS,
        number::STANDARD,
    )?;
    yes_or_no(s[at::SQUARE], number::SQUARE)?;
    yes_or_no(s[at::FOUR_TIMES], number::FOUR_TIMES)?;
    let apart = s[at::SQUARE] & s[at::FOUR_TIMES] == 0;
    demand(apart, refusal::SQUARE_FOUR_TIMES, number::FOUR_TIMES)?;
    yes_or_no(s[at::PEDESTAL], number::PEDESTAL)?;
    let apart = s[at::PEDESTAL] & s[at::STANDARD] == 0;
    demand(apart, refusal::PEDESTAL_PAL, number::PEDESTAL)?;
    yes_or_no(s[at::Y_LEVEL], number::Y_LEVEL)?;
    code(
        s[at::UV_LEVEL],
        0,
        LAST_UV,
        LAST_OF_TWO_BITS,
        number::UV_LEVEL,
    )?;
    yes_or_no(s[at::RGB_SYNC], number::RGB_SYNC)?;
    within(
        s[at::CLAMP_DELAY],
        -LAST_DELAY,
        LAST_DELAY,
        number::CLAMP_DELAY,
    )?;
    yes_or_no(s[at::BACK_PORCH], number::BACK_PORCH)?;
    within(s[at::PHASE], 0, LAST_BYTE, number::PHASE)
}

/// Checks field 11: first 7, then 3, then 4.
#[inline(always)]
fn check_signalling(s: &Numbers) -> Result<(), Refusal> {
    const FIELD: u32 = number::SIGNALLING;
    let pal = s[at::STANDARD] == at::PAL;
    match s[at::SIGNALLING] {
        at::OFF => Ok(()),
        at::CGMS => {
            let somewhere = s[at::ODD] != 0 || s[at::EVEN] != 0;
            demand(!pal && somewhere, refusal::SIGNALLING, FIELD)?;
            within(s[at::PAYLOAD], 0, LAST_PAYLOAD, FIELD)?;
            yes_or_no(s[at::ODD], FIELD)?;
            yes_or_no(s[at::EVEN], FIELD)?;
            yes_or_no(s[at::CHIP_CHECK], FIELD)
        }
        at::WSS => {
            demand(pal, refusal::SIGNALLING, FIELD)?;
            within(s[at::PAYLOAD], 0, LAST_PAYLOAD, FIELD)?;
            let odd = signal::wss_is_odd(s[at::PAYLOAD] as u32);
            demand(odd, refusal::RESERVED, FIELD)
        }
        _ => demand(false, refusal::RANGE, FIELD),
    }
}

/// Checks fields 12 to 17.
#[inline(always)]
fn check_picture(s: &Numbers) -> Result<(), Refusal> {
    within(s[at::CONTRAST], 0, LAST_CONTRAST, number::CONTRAST)?;
    within(s[at::U_SCALE], 0, LAST_SCALE, number::U_SCALE)?;
    within(s[at::V_SCALE], 0, LAST_SCALE, number::V_SCALE)?;
    within(s[at::HUE], HUES.0, HUES.1, number::HUE)?;
    within(
        s[at::BRIGHTNESS],
        BRIGHTNESSES.0,
        BRIGHTNESSES.1,
        number::BRIGHTNESS,
    )?;
    within(
        s[at::SHARPNESS],
        -LAST_SHARPNESS,
        LAST_SHARPNESS,
        number::SHARPNESS,
    )
}

/// Checks fields 18 to 25.
#[inline(always)]
fn check_dnr(s: &Numbers) -> Result<(), Refusal> {
    code(
        s[at::BORDER_GAIN],
        0,
        LAST_GAIN,
        LAST_OF_FOUR_BITS,
        number::BORDER_GAIN,
    )?;
    code(
        s[at::DATA_GAIN],
        0,
        LAST_GAIN,
        LAST_OF_FOUR_BITS,
        number::DATA_GAIN,
    )?;
    within(s[at::THRESHOLD], 0, LAST_THRESHOLD, number::THRESHOLD)?;
    yes_or_no(s[at::BORDER_AREA], number::BORDER_AREA)?;
    yes_or_no(s[at::BLOCK_SIZE], number::BLOCK_SIZE)?;
    code(
        s[at::DNR_INPUT],
        INPUTS.0,
        INPUTS.1,
        LAST_OF_THREE_BITS,
        number::DNR_INPUT,
    )?;
    yes_or_no(s[at::DNR_MODE], number::DNR_MODE)?;
    within(
        s[at::BLOCK_OFFSET],
        0,
        LAST_OF_FOUR_BITS,
        number::BLOCK_OFFSET,
    )
}

/// Checks a gamma curve whose kind is at index `kind`.
#[inline(always)]
fn check_curve(s: &Numbers, kind: usize, field: u32) -> Result<(), Refusal> {
    match s[kind] {
        at::RATIO => {
            within(s[kind + at::CURVE_P], 1, LARGEST as i32, field)?;
            within(s[kind + at::CURVE_Q], 1, LARGEST as i32, field)
        }
        at::BYTES => {
            let bytes = &s[kind + at::CURVE_FIRST..][..CURVE_BYTES];
            let fit = bytes.iter().all(|byte| (0..=LAST_BYTE).contains(byte));
            demand(fit, refusal::RANGE, field)
        }
        _ => demand(false, refusal::RANGE, field),
    }
}
