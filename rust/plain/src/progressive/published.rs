//! The images that the data sheet publishes.

use super::registers::{self as reg, REGISTERS};
use super::Image;

/// Registers after power-up that aren't 00, by Table XI.
const POWER_UP: [(usize, u8); 10] = [
    (reg::MODE_3, 0x38),
    (reg::COLOUR_Y, 0xA0),
    (reg::COLOUR_CR, 0x80),
    (reg::COLOUR_CB, 0x80),
    (reg::ADAPTIVE_GAIN_1, 0xAC),
    (reg::ADAPTIVE_GAIN_2, 0x9A),
    (reg::ADAPTIVE_GAIN_3, 0x88),
    (reg::THRESHOLD_A, 0x28),
    (reg::THRESHOLD_B, 0x3F),
    (reg::THRESHOLD_C, 0x64),
];
/// Registers of the hatch that are others, by Table XII.
const HATCH: [(usize, u8); 2] = [(reg::MODE_1, 0x05), (reg::MODE_6, 0x3E)];

/// Sample colours, each Y, Cr and Cb, by Table IV.
pub const COLOURS: [[u8; 3]; 8] = [
    [0xEB, 0x80, 0x80],
    [0x10, 0x80, 0x80],
    [0x51, 0xF0, 0x5A],
    [0x91, 0x22, 0x36],
    [0x29, 0x6E, 0xF0],
    [0xD2, 0x92, 0x10],
    [0xAA, 0x10, 0xA6],
    [0x6A, 0xDE, 0xCA],
];

/// An image with some registers changed.
pub fn holding(mut image: Image, held: &[(usize, u8)]) -> Image {
    for &(register, byte) in held {
        image[register] = byte;
    }
    image
}

/// After power-up. The table doesn't list 0A to 0F and 11 to 21: they are 00 here.
pub fn power_up() -> Image {
    holding([0; REGISTERS], &POWER_UP)
}

/// The hatch, on a board with the colours and filters of power-up.
pub fn hatch() -> Image {
    holding(power_up(), &HATCH)
}
