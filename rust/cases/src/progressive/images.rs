//! Images for the program `progressive_settings`, by what is on them. The text of each is the plain implementation's.

use super::reads::CURVE;
use super::{flipped, ZEROS};
use plain::progressive::published::{hatch, holding, power_up};
use plain::progressive::registers::{self as reg, REGISTERS};
use plain::progressive::Image;

/// Registers that aren't 00 on a board with another setting in nearly every field.
const FULL: [(usize, u8); 22] = [
    (reg::MODE_0, 0x5A),
    (reg::MODE_1, 0xFF),
    (reg::MODE_2, 0xE3),
    (reg::MODE_3, 0x79),
    (reg::MODE_4, 0xFF),
    (reg::MODE_5, 0xFE),
    (reg::COLOUR_Y, 0xEB),
    (reg::COLOUR_CR, 0x09),
    (reg::COLOUR_CB, 0x0A),
    (reg::MODE_6, 0x3E),
    (reg::RESERVED, 0x55),
    (0x0F, 0xFF),
    (reg::FILTER_GAIN, 0xF7),
    (0x11, 0xFF),
    (0x12, 0xFF),
    (0x13, 0xFF),
    (reg::ADAPTIVE_GAIN_1, 0xAC),
    (reg::ADAPTIVE_GAIN_2, 0x9A),
    (reg::ADAPTIVE_GAIN_3, 0x10),
    (reg::THRESHOLD_A, 0xFF),
    (reg::THRESHOLD_B, 0x63),
    (reg::THRESHOLD_C, 0x64),
];
/// The CGMS data 1, 65536 and 123456, which have one digit, five and six.
const CGMS: [(&str, [(usize, u8); 3]); 3] = [
    ("cgms_1", [(0x11, 0x01), (0x12, 0x00), (0x13, 0x00)]),
    ("cgms_65536", [(0x11, 0x00), (0x12, 0x00), (0x13, 0xF1)]),
    ("cgms_123456", [(0x11, 0x40), (0x12, 0xE2), (0x13, 0x01)]),
];
/// What is refused: bits that are flipped on a board after power-up.
const REFUSED: [(&str, &[(usize, u8)]); 11] = [
    ("output_standard_3", &[(reg::MODE_0, 0x03)]),
    ("input_control_signals_3", &[(reg::MODE_0, 0x0C)]),
    ("y_delay_5", &[(reg::MODE_2, 0x05)]),
    ("y_delay_6", &[(reg::MODE_2, 0x06)]),
    ("y_delay_7", &[(reg::MODE_2, 0x07)]),
    ("colour_delay_5", &[(reg::MODE_2, 0x28)]),
    ("colour_delay_6", &[(reg::MODE_2, 0x30)]),
    ("colour_delay_7", &[(reg::MODE_2, 0x38)]),
    ("mr05_and_mr07", &[(reg::MODE_0, 0xA0)]),
    (
        "mr31_and_y_delay_5",
        &[(reg::MODE_2, 0x05), (reg::MODE_3, 0x02)],
    ),
    ("mr50_and_mr37", &[(reg::MODE_3, 0x80), (reg::MODE_5, 0x01)]),
];

/// A board with another setting in nearly every field, and bits outside all of them set.
fn full() -> Image {
    let curves = [
        (reg::CURVE_A..).zip(CURVE),
        (reg::CURVE_B..).zip([0xFF, 0, 1, 0x0A, 0xA0, 0x99, 0x10]),
    ];
    let curves: Vec<(usize, u8)> = curves.into_iter().flatten().collect();
    holding(holding([0; REGISTERS], &FULL), &curves)
}

/// Every image that is made, by its name.
pub fn images() -> Vec<(String, Vec<u8>)> {
    let hdtv = holding(power_up(), &[(reg::MODE_1, 0x0D), (reg::MODE_3, 0x39)]);
    let delays = holding(power_up(), &[(reg::MODE_2, 0x24)]);
    let mut images: Vec<(&str, Image)> = vec![
        ("power_up", power_up()),
        ("hatch", hatch()),
        ("hdtv_field", hdtv),
        ("full", full()),
        ("delays_4", delays),
        ("all_zero", [0x00; REGISTERS]),
        ("all_ff", [0xFF; REGISTERS]),
    ];
    images.extend(CGMS.map(|(name, held)| (name, holding(power_up(), &held))));
    images.extend(REFUSED.map(|(name, flips)| (name, flipped(power_up(), flips))));
    let mut all: Vec<(String, Vec<u8>)> = images
        .into_iter()
        .map(|(name, image)| (name.to_string(), image.to_vec()))
        .collect();
    for (name, register, bit) in ZEROS {
        let image = flipped(power_up(), &[(register, bit)]);
        all.push((name.to_lowercase(), image.to_vec()));
    }
    let long = [power_up().to_vec(), vec![0x00; 14]].concat();
    for length in [39, 41, 54] {
        all.push((format!("bytes_{length}"), long[..length].to_vec()));
    }
    all.push(("no_bytes".to_string(), Vec::new()));
    all
}
