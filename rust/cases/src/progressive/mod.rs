//! The ADV7195: answers to its records, its records, and images for the program `progressive_settings`.

pub mod images;

pub(crate) mod plans;
pub(crate) mod plays;
pub(crate) mod ranges;
pub(crate) mod reads;

use crate::answer::{joined, planned, verdict};
use crate::record::Record;
use crate::{decimal, hex};
use plain::progressive::fields::{first_setting, SETTINGS};
use plain::progressive::{self, Image};

/// Numbers of fields.
pub(crate) const DAC_C: usize = 23;
pub(crate) const INTERPOLATION: usize = 24;
pub(crate) const COLOUR_Y: usize = 35;
pub(crate) const COLOUR_CR: usize = 36;
pub(crate) const COLOUR_CB: usize = 37;
pub(crate) const MODE_REGISTER_6: usize = 38;

/// Bits that must be zero: the name, the register and the bit.
pub(crate) const ZEROS: [(&str, usize, u8); 6] = [
    ("MR05", 0x00, 0x20),
    ("MR07", 0x00, 0x80),
    ("MR31", 0x03, 0x02),
    ("MR32", 0x03, 0x04),
    ("MR37", 0x03, 0x80),
    ("MR50", 0x05, 0x01),
];

/// Settings.
pub(crate) type Numbers = [i32; SETTINGS];

/// Planning.
pub(crate) fn plan(record: &Record, address: u32, settings: &[i32]) -> Option<String> {
    let mut lent = record.second()?;
    let answer = progressive::plan(&record.first()?, settings, address, &mut lent);
    Some(planned(answer, &lent))
}

/// Playing.
pub(crate) fn play(record: &Record, used: u32, own: u32) -> Option<String> {
    let mut image = record.first()?;
    let answer = progressive::play(&mut image, used, own, &record.second()?);
    Some(joined(&[
        verdict(answer.refusal, answer.field),
        answer.acknowledged.to_string(),
        hex(&image),
    ]))
}

/// Reading.
pub(crate) fn read(record: &Record) -> Option<String> {
    let mut settings = [0; SETTINGS];
    let answer = progressive::read(&record.first()?, &mut settings);
    Some(joined(&[
        verdict(answer.refusal, answer.field),
        decimal(&settings),
    ]))
}

/// The settings of an image that reading accepts.
pub(crate) fn settings_of(image: &Image) -> Numbers {
    let mut settings = [0; SETTINGS];
    let answer = progressive::read(image, &mut settings);
    assert_eq!(answer.refusal, 0, "settings of {image:02X?}");
    settings
}

/// Settings with those of some fields changed.
pub(crate) fn with(mut settings: Numbers, changed: &[(usize, i32)]) -> Numbers {
    for &(number, setting) in changed {
        settings[first_setting(number)] = setting;
    }
    settings
}

/// An image with bits of some registers flipped.
pub(crate) fn flipped(mut image: Image, flips: &[(usize, u8)]) -> Image {
    for &(register, bits) in flips {
        image[register] ^= bits;
    }
    image
}

/// A packed plan, bit by bit.
pub(crate) fn packed(list: &[(usize, &[u8])]) -> Vec<u8> {
    let mut bits = format!("{:06b}", list.len());
    for (start, data) in list {
        bits += &format!("{start:06b}{:06b}", data.len());
        data.iter().for_each(|byte| bits += &format!("{byte:08b}"));
    }
    bits += &"0".repeat(bits.len().next_multiple_of(8) - bits.len());
    let byte = |at: usize| u8::from_str_radix(&bits[at..at + 8], 2).expect("eight bits");
    (0..bits.len()).step_by(8).map(byte).collect()
}
