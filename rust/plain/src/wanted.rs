//! The image that checked settings ask for, over the image they start from.

use crate::codes;
use crate::fields::{self as at, SETTINGS};
use crate::gamma;
use crate::registers::{self as reg, CURVE_BYTES, REGISTERS, WORD_BYTES};
use crate::signal;
use crate::subcarrier;

/// The wanted image: each field as its coding makes it, every other bit as found.
#[inline]
pub(crate) fn wanted(image: &[u8; REGISTERS], s: &[i32; SETTINGS]) -> [u8; REGISTERS] {
    let mut new = *image;
    place_modes(&mut new, s);
    place_signalling(&mut new, s);
    place_picture(&mut new, s);
    place_dnr(&mut new, s);
    new[reg::CURVE_A..][..CURVE_BYTES].copy_from_slice(&curve(s, at::CURVE_A));
    new[reg::CURVE_B..][..CURVE_BYTES].copy_from_slice(&curve(s, at::CURVE_B));
    new
}

/// The bit of a yes, nothing for a no.
#[inline(always)]
fn bit(value: i32, bit: u8) -> u8 {
    value as u8 * bit
}

/// Fields 1 to 10, and the subcarrier word.
#[inline(always)]
fn place_modes(new: &mut [u8; REGISTERS], s: &[i32; SETTINGS]) {
    let square = bit(s[at::SQUARE], reg::SQUARE_BIT);
    let pedestal = bit(s[at::PEDESTAL], reg::PEDESTAL_BIT);
    let four_times = bit(s[at::FOUR_TIMES], reg::FOUR_TIMES_BIT);
    let delay = s[at::CLAMP_DELAY];
    new[reg::MODE_0] = new[reg::MODE_0] & !reg::STANDARD_BITS | s[at::STANDARD] as u8;
    new[reg::MODE_1] = new[reg::MODE_1] & !reg::FOUR_TIMES_BIT | four_times;
    new[reg::MODE_2] =
        new[reg::MODE_2] & !(reg::SQUARE_BIT | reg::PEDESTAL_BIT) | square | pedestal;
    new[reg::MODE_5] = bit(s[at::Y_LEVEL], reg::Y_LEVEL_BIT)
        | (s[at::UV_LEVEL] as u8) << reg::UV_LEVEL_SHIFT
        | bit(s[at::RGB_SYNC], reg::RGB_SYNC_BIT)
        | (delay.unsigned_abs() as u8) << reg::CLAMP_SHIFT
        | bit((delay < 0) as i32, reg::CLAMP_NEGATIVE_BIT)
        | bit(s[at::BACK_PORCH], reg::BACK_PORCH_BIT);
    let word = subcarrier::word(s[at::STANDARD] == at::PAL, s[at::SQUARE] != 0);
    new[reg::WORD..][..WORD_BYTES].copy_from_slice(&word.to_le_bytes());
    new[reg::PHASE] = s[at::PHASE] as u8;
}

/// Field 11.
#[inline(always)]
fn place_signalling(new: &mut [u8; REGISTERS], s: &[i32; SETTINGS]) {
    let (bits, switches) = match s[at::SIGNALLING] {
        at::CGMS => (
            signal::cgms_bits(s[at::PAYLOAD] as u32),
            bit(s[at::CHIP_CHECK], signal::CHIP_CHECK_BIT)
                | bit(s[at::ODD], signal::ODD_BIT)
                | bit(s[at::EVEN], signal::EVEN_BIT),
        ),
        at::WSS => (s[at::PAYLOAD] as u32, signal::WSS_BIT),
        _ => {
            new[reg::SIGNAL_TOP] &= !signal::SWITCHES;
            return;
        }
    };
    let [low, middle, top, _] = bits.to_le_bytes();
    new[reg::SIGNAL_LOW] = low;
    new[reg::SIGNAL_MIDDLE] = middle;
    new[reg::SIGNAL_TOP] = top | switches;
}

/// Fields 12 to 17.
#[inline(always)]
fn place_picture(new: &mut [u8; REGISTERS], s: &[i32; SETTINGS]) {
    new[reg::CONTRAST] = codes::scale_code(s[at::CONTRAST]);
    new[reg::U_SCALE] = codes::scale_code(s[at::U_SCALE]);
    new[reg::V_SCALE] = codes::scale_code(s[at::V_SCALE]);
    new[reg::HUE] = codes::hue_code(s[at::HUE]);
    new[reg::BRIGHTNESS] = codes::brightness_code(s[at::BRIGHTNESS]);
    new[reg::SHARPNESS] = codes::sharpness_code(s[at::SHARPNESS]);
}

/// Fields 18 to 25.
#[inline(always)]
fn place_dnr(new: &mut [u8; REGISTERS], s: &[i32; SETTINGS]) {
    new[reg::DNR_GAINS] = s[at::BORDER_GAIN] as u8 | (s[at::DATA_GAIN] as u8) << reg::HIGH_SHIFT;
    new[reg::DNR_SIZES] = s[at::THRESHOLD] as u8
        | bit(s[at::BORDER_AREA], reg::BORDER_AREA_BIT)
        | bit(s[at::BLOCK_SIZE], reg::BLOCK_SIZE_BIT);
    new[reg::DNR_MODES] = s[at::DNR_INPUT] as u8
        | bit(s[at::DNR_MODE], reg::DNR_MODE_BIT)
        | (s[at::BLOCK_OFFSET] as u8) << reg::HIGH_SHIFT;
}

/// The seven bytes of the curve whose kind is at index `kind`.
#[inline(always)]
fn curve(s: &[i32; SETTINGS], kind: usize) -> [u8; CURVE_BYTES] {
    if s[kind] == at::RATIO {
        let (p, q) = (s[kind + at::CURVE_P], s[kind + at::CURVE_Q]);
        return gamma::curve(p as usize, q as usize);
    }
    std::array::from_fn(|place| s[kind + at::CURVE_FIRST + place] as u8)
}
