//! Reading: from a board back to settings, or the first field at fault.

use crate::board::{Board, ALL_KNOWN};
use crate::check::numbers_of;
use crate::codes;
use crate::fields::{self as at, number, SETTINGS};
use crate::refusal::{self, demand, Refusal};
use crate::registers::{self as reg, CURVE_BYTES, REGISTERS, WORD_BYTES};
use crate::signal::{self, CHIP_CHECK_BIT, EVEN_BIT, ODD_BIT, SWITCHES, WSS_BIT};
use crate::subcarrier;

/// The largest contrast code.
const LAST_CONTRAST: u8 = 0xC0;
/// Brightness codes that no setting has: the first and the last.
const NO_BRIGHTNESS: (u8, u8) = (0x1F, 0x70);
/// The largest sharpness code.
const LAST_SHARPNESS: u8 = 0x0C;
/// The largest gain.
const LAST_GAIN: u8 = 8;
/// The first and the last DNR input.
const INPUTS: (u8, u8) = (1, 4);

/// What reading answers.
#[derive(Clone, Copy, Debug, Default, PartialEq, Eq)]
pub struct ReadAnswer {
    /// The refusal, or 0.
    pub refusal: u32,
    /// The field at fault, or 0.
    pub field: u32,
}

/// Writes into `settings` what a chip holding `image` in its `known` registers is
/// set to. Checks 1, the length lent, then the fields in order to 28, each by 11
/// for an unknown register before all else.
pub fn read(image: &[u8], known: u64, settings: &mut [i32]) -> ReadAnswer {
    match settings_of(image, known, settings) {
        Ok(numbers) => {
            settings.copy_from_slice(&numbers);
            ReadAnswer::default()
        }
        Err(refused) => ReadAnswer {
            refusal: refused.refusal,
            field: refused.field,
        },
    }
}

/// Reading, with its refusal as an error.
#[inline]
fn settings_of(image: &[u8], known: u64, settings: &[i32]) -> Result<[i32; SETTINGS], Refusal> {
    let board = Board::of(image, known)?;
    numbers_of(settings)?;
    if known & ALL_KNOWN == ALL_KNOWN {
        // No field asks then, which the compiler sees by these flags.
        let known = u64::MAX;
        return fields_of(Board { known, ..board });
    }
    fields_of(board)
}

/// The settings of a board, field by field.
#[inline(always)]
fn fields_of(board: Board) -> Result<[i32; SETTINGS], Refusal> {
    let mut s = [0; SETTINGS];
    read_modes(board, &mut s)?;
    read_levels(board, &mut s)?;
    read_signalling(board, &mut s)?;
    read_picture(board, &mut s)?;
    read_dnr(board, &mut s)?;
    board.demand_known(reg::CURVE_A, CURVE_BYTES, number::CURVE_A)?;
    read_curve(board.registers, reg::CURVE_A, &mut s, at::CURVE_A);
    board.demand_known(reg::CURVE_B, CURVE_BYTES, number::CURVE_B)?;
    read_curve(board.registers, reg::CURVE_B, &mut s, at::CURVE_B);
    board.demand_known(reg::WORD, WORD_BYTES, number::WORD)?;
    let word = subcarrier::word(s[at::STANDARD] == at::PAL, s[at::SQUARE] != 0);
    let agrees = board.registers[reg::WORD..][..WORD_BYTES] == word.to_le_bytes();
    demand(agrees, refusal::DISAGREES, number::WORD)?;
    Ok(s)
}

/// 1 where the bit is set.
#[inline(always)]
fn yes(register: u8, bit: u8) -> i32 {
    (register & bit != 0) as i32
}

/// Fields 1 to 4.
#[inline(always)]
fn read_modes(board: Board, s: &mut [i32; SETTINGS]) -> Result<(), Refusal> {
    let image = board.registers;
    board.demand_known(reg::MODE_0, 1, number::STANDARD)?;
    s[at::STANDARD] = (image[reg::MODE_0] & reg::STANDARD_BITS) as i32;
    demand(
        s[at::STANDARD] <= at::PAL,
        refusal::RESERVED,
        number::STANDARD,
    )?;
    board.demand_known(reg::MODE_2, 1, number::SQUARE)?;
    s[at::SQUARE] = yes(image[reg::MODE_2], reg::SQUARE_BIT);
    board.demand_known(reg::MODE_1, 1, number::FOUR_TIMES)?;
    s[at::FOUR_TIMES] = yes(image[reg::MODE_1], reg::FOUR_TIMES_BIT);
    let apart = s[at::SQUARE] & s[at::FOUR_TIMES] == 0;
    demand(apart, refusal::SQUARE_FOUR_TIMES, number::FOUR_TIMES)?;
    s[at::PEDESTAL] = yes(image[reg::MODE_2], reg::PEDESTAL_BIT);
    let apart = s[at::PEDESTAL] & s[at::STANDARD] == 0;
    demand(apart, refusal::PEDESTAL_PAL, number::PEDESTAL)
}

/// Fields 5 to 10.
#[inline(always)]
fn read_levels(board: Board, s: &mut [i32; SETTINGS]) -> Result<(), Refusal> {
    board.demand_known(reg::MODE_5, 1, number::Y_LEVEL)?;
    let mode = board.registers[reg::MODE_5];
    s[at::Y_LEVEL] = yes(mode, reg::Y_LEVEL_BIT);
    let uv = mode >> reg::UV_LEVEL_SHIFT & reg::TWO_BITS;
    s[at::UV_LEVEL] = uv as i32;
    demand(uv != reg::TWO_BITS, refusal::RESERVED, number::UV_LEVEL)?;
    s[at::RGB_SYNC] = yes(mode, reg::RGB_SYNC_BIT);
    let delay = (mode >> reg::CLAMP_SHIFT & reg::TWO_BITS) as i32;
    let negative = mode & reg::CLAMP_NEGATIVE_BIT != 0;
    let sound = !(negative && delay == 0);
    demand(sound, refusal::RESERVED, number::CLAMP_DELAY)?;
    s[at::CLAMP_DELAY] = if negative { -delay } else { delay };
    s[at::BACK_PORCH] = yes(mode, reg::BACK_PORCH_BIT);
    board.demand_known(reg::PHASE, 1, number::PHASE)?;
    s[at::PHASE] = board.registers[reg::PHASE] as i32;
    Ok(())
}

/// Field 11: first 11, off or not, then 7, then 4, then 8.
#[inline(always)]
fn read_signalling(board: Board, s: &mut [i32; SETTINGS]) -> Result<(), Refusal> {
    const FIELD: u32 = number::SIGNALLING;
    board.demand_known(reg::SIGNAL_TOP, reg::SIGNAL_BYTES, FIELD)?;
    let image = board.registers;
    let top = image[reg::SIGNAL_TOP];
    if top & SWITCHES == 0 {
        return Ok(());
    }
    let pal = s[at::STANDARD] == at::PAL;
    let cgms = top & (ODD_BIT | EVEN_BIT) != 0;
    let wss = top & WSS_BIT != 0;
    demand(!(cgms && wss), refusal::SIGNALLING, FIELD)?;
    demand(!(cgms && pal || wss && !pal), refusal::SIGNALLING, FIELD)?;
    demand(cgms || wss, refusal::RESERVED, FIELD)?;
    let middle = image[reg::SIGNAL_MIDDLE];
    let bits = u32::from_le_bytes([image[reg::SIGNAL_LOW], middle, top & reg::LOW_BITS, 0]);
    let payload = bits & signal::LAST_PAYLOAD as u32;
    if wss {
        let sound =
            top == WSS_BIT && middle & !signal::WSS_MIDDLE_BITS == 0 && signal::wss_is_odd(payload);
        demand(sound, refusal::RESERVED, FIELD)?;
        s[at::SIGNALLING] = at::WSS;
    } else {
        let agrees = bits == signal::cgms_bits(payload);
        demand(agrees, refusal::DISAGREES, FIELD)?;
        s[at::SIGNALLING] = at::CGMS;
        s[at::ODD] = yes(top, ODD_BIT);
        s[at::EVEN] = yes(top, EVEN_BIT);
        s[at::CHIP_CHECK] = yes(top, CHIP_CHECK_BIT);
    }
    s[at::PAYLOAD] = payload as i32;
    Ok(())
}

/// Fields 12 to 17.
#[inline(always)]
fn read_picture(board: Board, s: &mut [i32; SETTINGS]) -> Result<(), Refusal> {
    let image = board.registers;
    board.demand_known(reg::CONTRAST, 1, number::CONTRAST)?;
    let contrast = image[reg::CONTRAST];
    demand(contrast <= LAST_CONTRAST, refusal::RANGE, number::CONTRAST)?;
    s[at::CONTRAST] = codes::scale_of(contrast);
    board.demand_known(reg::U_SCALE, 1, number::U_SCALE)?;
    s[at::U_SCALE] = codes::scale_of(image[reg::U_SCALE]);
    board.demand_known(reg::V_SCALE, 1, number::V_SCALE)?;
    s[at::V_SCALE] = codes::scale_of(image[reg::V_SCALE]);
    board.demand_known(reg::HUE, 1, number::HUE)?;
    s[at::HUE] = codes::hue_of(image[reg::HUE]);
    board.demand_known(reg::BRIGHTNESS, 1, number::BRIGHTNESS)?;
    let brightness = image[reg::BRIGHTNESS];
    let code = brightness & reg::BRIGHTNESS_BITS;
    let none = (NO_BRIGHTNESS.0..=NO_BRIGHTNESS.1).contains(&code);
    demand(!none, refusal::RANGE, number::BRIGHTNESS)?;
    demand(code == brightness, refusal::RESERVED, number::BRIGHTNESS)?;
    s[at::BRIGHTNESS] = codes::brightness_of(code);
    board.demand_known(reg::SHARPNESS, 1, number::SHARPNESS)?;
    let sharpness = image[reg::SHARPNESS];
    let code = sharpness & reg::LOW_BITS;
    demand(code <= LAST_SHARPNESS, refusal::RANGE, number::SHARPNESS)?;
    demand(code == sharpness, refusal::RESERVED, number::SHARPNESS)?;
    s[at::SHARPNESS] = codes::sharpness_of(code);
    Ok(())
}

/// Fields 18 to 25.
#[inline(always)]
fn read_dnr(board: Board, s: &mut [i32; SETTINGS]) -> Result<(), Refusal> {
    let image = board.registers;
    board.demand_known(reg::DNR_GAINS, 1, number::BORDER_GAIN)?;
    let border = image[reg::DNR_GAINS] & reg::LOW_BITS;
    let data = image[reg::DNR_GAINS] >> reg::HIGH_SHIFT;
    demand(border <= LAST_GAIN, refusal::RESERVED, number::BORDER_GAIN)?;
    demand(data <= LAST_GAIN, refusal::RESERVED, number::DATA_GAIN)?;
    s[at::BORDER_GAIN] = border as i32;
    s[at::DATA_GAIN] = data as i32;
    board.demand_known(reg::DNR_SIZES, 1, number::THRESHOLD)?;
    let sizes = image[reg::DNR_SIZES];
    s[at::THRESHOLD] = (sizes & reg::THRESHOLD_BITS) as i32;
    s[at::BORDER_AREA] = yes(sizes, reg::BORDER_AREA_BIT);
    s[at::BLOCK_SIZE] = yes(sizes, reg::BLOCK_SIZE_BIT);
    board.demand_known(reg::DNR_MODES, 1, number::DNR_INPUT)?;
    let modes = image[reg::DNR_MODES];
    let input = modes & reg::DNR_INPUT_BITS;
    let sound = (INPUTS.0..=INPUTS.1).contains(&input);
    demand(sound, refusal::RESERVED, number::DNR_INPUT)?;
    s[at::DNR_INPUT] = input as i32;
    s[at::DNR_MODE] = yes(modes, reg::DNR_MODE_BIT);
    s[at::BLOCK_OFFSET] = (modes >> reg::HIGH_SHIFT) as i32;
    Ok(())
}

/// A curve, as seven bytes.
#[inline(always)]
fn read_curve(image: &[u8; REGISTERS], first: usize, s: &mut [i32; SETTINGS], kind: usize) {
    s[kind] = at::BYTES;
    let numbers = &mut s[kind + at::CURVE_FIRST..][..CURVE_BYTES];
    for (number, &byte) in numbers.iter_mut().zip(&image[first..][..CURVE_BYTES]) {
        *number = byte as i32;
    }
}
