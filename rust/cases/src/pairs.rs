//! Pairs of images for the program `board_compare`, by what they show. The
//! text of each is the plain implementation's.

use crate::plans::{house, pal, wanted, with};
use plain::fields::{self as at, SETTINGS};
use plain::registers::{self as reg, REGISTERS};

/// An image.
type Image = [u8; REGISTERS];

/// Two files to compare, and what the case is called.
pub struct Pair {
    /// The files' name.
    pub name: String,
    /// The first file.
    pub a: Vec<u8>,
    /// The second file.
    pub b: Vec<u8>,
}

/// What registers outside all fields hold in most of these images.
const GROUND: u8 = 0xA5;
/// The register before the first of the word's, outside all fields.
const LONE_REGISTER: usize = 0x0B;
/// Every bit.
const EVERY_BIT: u8 = 0xFF;

/// One bit or more of each field, field 1 first: a register and what it is flipped by. Fields 1, 2
/// and 28 can't differ alone where both images can be read.
pub(crate) const FLIPPED: [(&str, usize, u8); 27] = [
    ("01_standard", reg::MODE_0, 0x01),
    ("02_square_pixel", reg::MODE_2, 0x10),
    ("03_4x_oversampling", reg::MODE_1, 0x40),
    ("04_pedestal", reg::MODE_2, 0x08),
    ("05_y_level", reg::MODE_5, 0x01),
    ("06_uv_level", reg::MODE_5, 0x06),
    ("07_rgb_sync", reg::MODE_5, 0x08),
    ("08_clamp_delay", reg::MODE_5, 0x60),
    ("09_clamp_in_back_porch", reg::MODE_5, 0x80),
    ("10_subcarrier_phase", reg::PHASE, 0xFF),
    ("12_contrast", reg::CONTRAST, 0x17),
    ("13_u_scale", reg::U_SCALE, 0x01),
    ("14_v_scale", reg::V_SCALE, 0x7F),
    ("15_hue", reg::HUE, 0x17),
    ("16_brightness", reg::BRIGHTNESS, 0x71),
    ("17_sharpness", reg::SHARPNESS, 0x0A),
    ("18_dnr_border_gain", reg::DNR_GAINS, 0x08),
    ("19_dnr_data_gain", reg::DNR_GAINS, 0x10),
    ("20_dnr_threshold", reg::DNR_SIZES, 0x3F),
    ("21_dnr_border_area", reg::DNR_SIZES, 0x40),
    ("22_dnr_block_size", reg::DNR_SIZES, 0x80),
    ("23_dnr_input", reg::DNR_MODES, 0x05),
    ("24_dnr_mode", reg::DNR_MODES, 0x08),
    ("25_dnr_block_offset", reg::DNR_MODES, 0xF0),
    ("26_gamma_curve_a", reg::CURVE_A + 6, 0x01),
    ("27_gamma_curve_b", reg::CURVE_B, 0x80),
    ("28_subcarrier_word", reg::WORD + 3, 0x01),
];

/// One difference in one or two registers: what it is called, and what each register is flipped by.
const ALONE: [(&str, &[(usize, u8)]); 10] = [
    ("must_be_zero_21", &[(reg::BRIGHTNESS, 0x80)]),
    ("must_be_zero_22", &[(reg::SHARPNESS, 0x40)]),
    ("under_off_19", &[(reg::SIGNAL_TOP, 0x01)]),
    ("under_off_1a", &[(reg::SIGNAL_MIDDLE, 0x80)]),
    ("under_off_1b", &[(reg::SIGNAL_LOW, 0x08)]),
    ("register_34", &[(reg::READ_ONLY, EVERY_BIT)]),
    (
        "register_34_and_35",
        &[(reg::READ_ONLY, EVERY_BIT), (0x35, 0x01)],
    ),
    ("captions", &[(0x11, 0x01), (0x14, 0x80)]),
    (
        "register_beside_word",
        &[(LONE_REGISTER, 0x10), (0x10, 0x01)],
    ),
    ("field_and_outside_in_00", &[(reg::MODE_0, 0x05)]),
];

/// All pairs, in the order of their names' kinds.
pub fn pairs() -> Vec<Pair> {
    let board = wanted(&busy(), GROUND);
    let mut pairs = vec![
        pair("equal", &board, &board),
        pair("equal_any_bytes", &any(), &any()),
    ];
    pairs.extend(one_field(&board));
    pairs.extend(ALONE.map(|(name, flips)| pair(name, &board, &flipped(&board, flips))));
    pairs.extend(many(&board));
    pairs.extend(refused(&board));
    pairs
}

/// A pair of files.
fn pair(name: &str, a: &[u8], b: &[u8]) -> Pair {
    let (name, a, b) = (name.to_string(), a.to_vec(), b.to_vec());
    Pair { name, a, b }
}

/// NTSC settings in which most fields aren't 0, so that a neighbour's bits would show.
fn busy() -> [i32; SETTINGS] {
    let changed = [
        (at::PEDESTAL, 1),
        (at::Y_LEVEL, 1),
        (at::UV_LEVEL, 1),
        (at::RGB_SYNC, 1),
        (at::CLAMP_DELAY, 1),
        (at::BACK_PORCH, 1),
        (at::PHASE, 90),
        (at::BORDER_GAIN, 8),
        (at::DATA_GAIN, 3),
        (at::THRESHOLD, 42),
        (at::BORDER_AREA, 1),
        (at::BLOCK_SIZE, 1),
        (at::DNR_MODE, 1),
        (at::BLOCK_OFFSET, 9),
    ];
    with(house(), &changed)
}

/// An image with some registers' bits flipped.
fn flipped(image: &Image, flips: &[(usize, u8)]) -> Image {
    let mut image = *image;
    for &(register, bits) in flips {
        image[register] ^= bits;
    }
    image
}

/// An image that reading refuses, each register another byte.
fn any() -> Image {
    std::array::from_fn(|register| (5 * register + 2) as u8)
}

/// One difference in each field.
fn one_field(board: &Image) -> Vec<Pair> {
    let mut pairs: Vec<Pair> = FLIPPED
        .into_iter()
        .map(|(name, register, bits)| {
            let name = format!("field_{name}");
            pair(&name, board, &flipped(board, &[(register, bits)]))
        })
        .collect();
    let cgms = with(
        busy(),
        &[
            (at::SIGNALLING, at::CGMS),
            (at::PAYLOAD, 0x1234),
            (at::EVEN, 1),
            (at::CHIP_CHECK, 1),
        ],
    );
    pairs.push(pair("field_11_signalling", board, &wanted(&cgms, GROUND)));
    pairs
}

/// Several differences at once.
fn many(board: &Image) -> Vec<Pair> {
    let square = with(house(), &[(at::FOUR_TIMES, 0), (at::PEDESTAL, 0)]);
    let ntsc = wanted(&square, GROUND);
    let wss = with(pal(), &[(at::SIGNALLING, at::WSS), (at::PAYLOAD, 8)]);
    let other = with(wss, &[(at::PAYLOAD, 0x2A07)]);
    let every = wanted(&every(), GROUND);
    let outside: Vec<(usize, u8)> = (0..REGISTERS)
        .map(|register| (register, plain::outside(register)))
        .collect();
    vec![
        pair("standard_square_and_word", &ntsc, &wanted(&pal(), GROUND)),
        pair(
            "wss_numbers",
            &wanted(&wss, GROUND),
            &wanted(&other, GROUND),
        ),
        pair("every_field", board, &every),
        pair("every_field_and_outside", &flipped(board, &outside), &every),
        pair("every_bit", board, &board.map(|byte| !byte)),
        pair("outside_all_fields", board, &flipped(board, &outside)),
        pair(
            "all_zero_and_all_ff",
            &[0; REGISTERS],
            &[EVERY_BIT; REGISTERS],
        ),
    ]
}

/// PAL settings of which no field is coded as in the busy ones.
fn every() -> [i32; SETTINGS] {
    let mut settings = pal();
    let changed = [
        (at::UV_LEVEL, 2),
        (at::CLAMP_DELAY, -3),
        (at::PHASE, 255),
        (at::SIGNALLING, at::WSS),
        (at::PAYLOAD, 16376),
        (at::CONTRAST, 1500),
        (at::U_SCALE, 0),
        (at::V_SCALE, 1996),
        (at::HUE, -225),
        (at::BRIGHTNESS, -75),
        (at::SHARPNESS, -6),
        (at::THRESHOLD, 63),
        (at::DNR_INPUT, 4),
        (at::BLOCK_OFFSET, 15),
        (at::CURVE_A + at::CURVE_Q, 3),
        (at::CURVE_B + at::CURVE_P, 3),
    ];
    for (place, number) in changed {
        settings[place] = number;
    }
    settings
}

/// Images that reading refuses, and files that aren't 54 bytes.
fn refused(board: &Image) -> Vec<Pair> {
    let hue = flipped(board, &[(reg::HUE, 0x17), (reg::DNR_GAINS, 0x11)]);
    let no_input = flipped(&hue, &[(reg::DNR_MODES, 0x01)]);
    let no_check = flipped(&hue, &[(reg::SIGNAL_TOP, 0x20)]);
    let short = &board[..REGISTERS - 1];
    let long = [&board[..], &[0]].concat();
    vec![
        pair("first_not_read", &no_input, board),
        pair("second_not_read", board, &no_check),
        pair("neither_read", &no_input, &no_check),
        pair("53_and_54_bytes", short, board),
        pair("54_and_53_bytes", board, short),
        pair("55_and_54_bytes", &long, board),
        pair("54_and_55_bytes", board, &long),
        pair("53_and_53_bytes", short, short),
        pair("no_bytes", &[], &[]),
    ]
}
