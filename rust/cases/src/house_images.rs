//! Images for the program `house_why`, by what is wrong on them. The text of each is the plain implementation's.

use crate::make::numbered;
use crate::plans::{house, settled};
use plain::registers::{self as reg, REGISTERS};

/// What is wrong where the house setting is wanted: bits that are flipped in registers.
const WRONG: [(&str, &[(usize, u8)]); 31] = [
    ("nothing_wrong", &[]),
    ("hue", &[(reg::HUE, 0x17)]),
    ("standard", &[(reg::MODE_0, 0x01)]),
    ("clamp_in_back_porch", &[(reg::MODE_5, 0x80)]),
    ("signalling_on", &[(reg::SIGNAL_TOP, 0x70)]),
    ("last_byte_of_curve_b", &[(0x33, 0x01)]),
    ("square_pixel_and_pedestal", &[(reg::MODE_2, 0x18)]),
    ("every_field_of_05", &[(reg::MODE_5, 0xFF)]),
    ("dnr_data_gain_below_border_gain", &[(reg::DNR_GAINS, 0x10)]),
    ("both_dnr_gains", &[(reg::DNR_GAINS, 0x11)]),
    ("dnr_block_size_and_border_area", &[(reg::DNR_SIZES, 0xC0)]),
    ("bit_7_of_21", &[(0x21, 0x80)]),
    ("bit_4_of_22", &[(0x22, 0x10)]),
    ("bits_of_22_and_of_21", &[(0x21, 0x80), (0x22, 0xF0)]),
    ("brightness_and_bit_7_of_21", &[(0x21, 0x81)]),
    ("sharpness_and_bits_of_22", &[(0x22, 0xF1)]),
    ("only_0c", &[(0x0C, 0x01)]),
    ("only_0f", &[(0x0F, 0x80)]),
    ("0d_and_0e", &[(0x0D, 0x01), (0x0E, 0x01)]),
    (
        "every_byte_of_the_word",
        &[(0x0C, 0x1F), (0x0D, 0x7C), (0x0E, 0xF0), (0x0F, 0x21)],
    ),
    ("0f_and_10", &[(0x0F, 0x80), (0x10, 0x01)]),
    ("only_10", &[(0x10, 0x01)]),
    ("gap_of_one_at_01", &[(0x00, 0x01), (0x02, 0x10)]),
    ("gap_of_one_at_1f", &[(0x1E, 0x01), (0x20, 0x01)]),
    ("gap_of_two_03_04", &[(0x02, 0x10), (0x05, 0x01)]),
    ("gap_of_two_1e_1f", &[(0x1D, 0x01), (0x20, 0x01)]),
    ("gap_of_three_1e_to_20", &[(0x1D, 0x01), (0x21, 0x01)]),
    (
        "gaps_of_two_and_of_one",
        &[(0x1D, 0x01), (0x20, 0x01), (0x22, 0x01)],
    ),
    ("bridge_below_bit_4_of_22", &[(0x20, 0x01), (0x22, 0x10)]),
    ("bridge_above_bit_7_of_21", &[(0x21, 0x80), (0x23, 0x11)]),
    (
        "each_reason",
        &[(0x02, 0x10), (0x05, 0x01), (0x0F, 0x80), (0x21, 0x80)],
    ),
];
/// The data sheet's boards: the registers that aren't 0.
const PUBLISHED: [(&str, &[(usize, u8)]); 2] =
    [("reset_ntsc", RESET_NTSC), ("published_pal", PUBLISHED_PAL)];
/// After a reset in NTSC mode.
const RESET_NTSC: &[(usize, u8)] = &[
    (0x01, 0x07),
    (0x02, 0x08),
    (0x0A, 0x08),
    (0x0C, 0x16),
    (0x0D, 0x7C),
    (0x0E, 0xF0),
    (0x0F, 0x21),
    (0x35, 0x72),
];
/// As it is to be programmed for PAL.
const PUBLISHED_PAL: &[(usize, u8)] = &[
    (0x00, 0x11),
    (0x01, 0x3F),
    (0x02, 0x62),
    (0x08, 0x04),
    (0x0A, 0x08),
    (0x0C, 0xCB),
    (0x0D, 0x8A),
    (0x0E, 0x09),
    (0x0F, 0x2A),
    (0x23, 0x44),
    (0x24, 0x20),
    (0x35, 0x70),
];

/// An image with some registers' bits flipped.
fn flipped(mut image: [u8; REGISTERS], flips: &[(usize, u8)]) -> Vec<u8> {
    for &(register, bits) in flips {
        image[register] ^= bits;
    }
    image.to_vec()
}

/// Every image that is made, by its name. Registers outside all fields hold their number on most.
pub fn images() -> Vec<(&'static str, Vec<u8>)> {
    let right = settled(numbered(), &house());
    let wrong = WRONG.map(|(name, flips)| (name, flipped(right, flips)));
    let published = PUBLISHED.map(|(name, held)| (name, flipped([0; REGISTERS], held)));
    let others = [
        ("all_zero", vec![0x00; REGISTERS]),
        ("all_ff", vec![0xFF; REGISTERS]),
        ("each_register_its_number", numbered().to_vec()),
        ("no_bytes", vec![]),
        ("bytes_53", right[..REGISTERS - 1].to_vec()),
        ("bytes_55", [&right[..], &[0]].concat()),
    ];
    let images = wrong.into_iter().chain(published).chain(others);
    images.collect()
}
