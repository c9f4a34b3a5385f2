//! The codings of single fields, by planning and reading with all other fields as they are in one image.

use crate::answer::judged;
use crate::hex;
use plain::fields::{self as at, number, SETTINGS};
use plain::refusal::{self, Refusal};
use plain::registers::{self as reg, REGISTERS, WORD_BYTES};
use plain::subcarrier;
use plain::{ALL_KNOWN, NO_LIMIT};

/// An even address.
const ADDRESS: u32 = 0x54;
/// Room for every plan.
const ROOM: usize = 64;

/// Each field that holds one number: its number, its register, its lowest bit and its width.
pub const PLACES: [(u32, usize, u32, u32); 24] = [
    (1, 0x00, 0, 2),
    (2, 0x02, 4, 1),
    (3, 0x01, 6, 1),
    (4, 0x02, 3, 1),
    (5, 0x05, 0, 1),
    (6, 0x05, 1, 2),
    (7, 0x05, 3, 1),
    (8, 0x05, 4, 3),
    (9, 0x05, 7, 1),
    (10, 0x10, 0, 8),
    (12, 0x1D, 0, 8),
    (13, 0x1E, 0, 8),
    (14, 0x1F, 0, 8),
    (15, 0x20, 0, 8),
    (16, 0x21, 0, 7),
    (17, 0x22, 0, 4),
    (18, 0x23, 0, 4),
    (19, 0x23, 4, 4),
    (20, 0x24, 0, 6),
    (21, 0x24, 6, 1),
    (22, 0x24, 7, 1),
    (23, 0x25, 0, 3),
    (24, 0x25, 3, 1),
    (25, 0x25, 4, 4),
];

/// A field's register, lowest bit and width, with its place among the settings.
fn place(field: i64) -> Option<(usize, u32, u32, usize)> {
    let &(field, register, bit, width) = PLACES.iter().find(|place| i64::from(place.0) == field)?;
    let signalling = field > number::SIGNALLING;
    let index = if signalling { field + 3 } else { field - 1 };
    Some((register, bit, width, index as usize))
}

/// Settings with which no field's code conflicts: NTSC, no pedestal, no square pixel, no 4x, signalling off.
fn base() -> [i32; SETTINGS] {
    let mut settings = [0; SETTINGS];
    settings[at::DNR_INPUT] = 1;
    for kind in [at::CURVE_A, at::CURVE_B] {
        settings[kind + at::CURVE_P] = 1;
        settings[kind + at::CURVE_Q] = 1;
    }
    settings
}

/// The image that settings ask for over zeros.
fn wanted(settings: &[i32; SETTINGS]) -> Result<[u8; REGISTERS], Refusal> {
    plain::check(settings)?;
    let mut image = [0; REGISTERS];
    let mut plan = [0; ROOM];
    let planned = plain::plan(&image, ALL_KNOWN, settings, ADDRESS, NO_LIMIT, &mut plan);
    plain::play(
        &mut image,
        ALL_KNOWN,
        ADDRESS,
        ADDRESS,
        &plan[..planned.length as usize],
    );
    Ok(image)
}

/// The code of a field's setting.
pub fn code(field: i64, setting: i32) -> Option<String> {
    let (register, bit, width, index) = place(field)?;
    let mut settings = base();
    settings[index] = setting;
    let code = wanted(&settings).map(|image| image[register] >> bit & mask(width));
    Some(judged(code.map(|code| hex(&[code]))))
}

/// As many ones as a field is wide.
fn mask(width: u32) -> u8 {
    ((1u32 << width) - 1) as u8
}

/// The setting of a field's code. A code that the field's bits can't hold is out of range.
pub fn setting(field: i64, code: u8) -> Option<String> {
    let (register, bit, width, index) = place(field)?;
    if code > mask(width) {
        return Some(judged(Err(Refusal {
            refusal: refusal::RANGE,
            field: field as u32,
        })));
    }
    let mut image = wanted(&base()).expect("settings that are accepted");
    image[register] = image[register] & !(mask(width) << bit) | code << bit;
    place_word(&mut image);
    let mut settings = [0; SETTINGS];
    let read = plain::read(&image, ALL_KNOWN, &mut settings);
    let Some(refusal) = Some(read.refusal).filter(|&refusal| refusal != 0) else {
        return Some(judged(Ok(settings[index].to_string())));
    };
    assert_eq!(i64::from(read.field), field, "another field is at fault");
    Some(judged(Err(Refusal {
        refusal,
        field: read.field,
    })))
}

/// Makes the subcarrier word agree with the standard and the pixels.
fn place_word(image: &mut [u8; REGISTERS]) {
    let pal = image[reg::MODE_0] & 1 != 0;
    let square = image[reg::MODE_2] & reg::SQUARE_BIT != 0;
    let word = subcarrier::word(pal, square).to_le_bytes();
    image[reg::WORD..][..WORD_BYTES].copy_from_slice(&word);
}
