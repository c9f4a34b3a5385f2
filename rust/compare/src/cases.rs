//! Seeded settings and images.

use crate::random::Random;
use plain::fields::{self as at, SETTINGS};
use plain::registers::{CURVE_BYTES, REGISTERS};
use plain::{signal, PlanAnswer, ALL_KNOWN, NO_LIMIT};

/// Settings as numbers.
pub type Numbers = [i32; SETTINGS];
/// An image.
pub type Image = [u8; REGISTERS];

/// An even address.
pub const ADDRESS: u32 = 0x54;
/// More than any packed plan is long.
pub const ROOM: usize = 64;
/// What a lent plan holds before.
pub const BEFORE: u8 = 0x6B;

/// The numbers whose range doesn't depend on the others, with that range.
const RANGES: [(usize, i32, i32); 18] = [
    (at::Y_LEVEL, 0, 1),
    (at::UV_LEVEL, 0, 2),
    (at::RGB_SYNC, 0, 1),
    (at::CLAMP_DELAY, -3, 3),
    (at::BACK_PORCH, 0, 1),
    (at::PHASE, 0, 255),
    (at::CONTRAST, 0, 1500),
    (at::U_SCALE, 0, 1996),
    (at::V_SCALE, 0, 1996),
    (at::HUE, -225, 224),
    (at::BRIGHTNESS, -75, 150),
    (at::SHARPNESS, -6, 6),
    (at::BORDER_GAIN, 0, 8),
    (at::DATA_GAIN, 0, 8),
    (at::THRESHOLD, 0, 63),
    (at::BORDER_AREA, 0, 1),
    (at::BLOCK_SIZE, 0, 1),
    (at::DNR_INPUT, 1, 4),
];

/// Numbers that are outside of something.
const ODD_ONES: [i32; 36] = [
    -1,
    0,
    1,
    2,
    3,
    4,
    5,
    6,
    7,
    8,
    9,
    15,
    16,
    63,
    64,
    150,
    151,
    -3,
    -4,
    -6,
    -7,
    -75,
    -76,
    224,
    225,
    -225,
    -226,
    255,
    256,
    1500,
    1501,
    1996,
    1997,
    16384,
    i32::MIN,
    i32::MAX,
];

/// Settings that are accepted. Numbers that their kinds don't use are anything.
pub fn accepted(random: &mut Random) -> Numbers {
    let mut s: Numbers = std::array::from_fn(|_| random.bits() as i32);
    for (place, low, high) in RANGES {
        s[place] = random.within(low, high);
    }
    s[at::DNR_MODE] = random.within(0, 1);
    s[at::BLOCK_OFFSET] = random.within(0, 15);
    let pal = random.flag();
    let square = random.flag();
    s[at::STANDARD] = pal as i32;
    s[at::SQUARE] = square as i32;
    s[at::FOUR_TIMES] = (!square && random.flag()) as i32;
    s[at::PEDESTAL] = (!pal && random.flag()) as i32;
    place_signalling(random, &mut s, pal);
    place_curve(random, &mut s, at::CURVE_A);
    place_curve(random, &mut s, at::CURVE_B);
    s
}

/// Signalling that the standard has, or none.
fn place_signalling(random: &mut Random, s: &mut Numbers, pal: bool) {
    if random.once_in(3) {
        s[at::SIGNALLING] = at::OFF;
        return;
    }
    s[at::PAYLOAD] = random.within(0, signal::LAST_PAYLOAD);
    if pal {
        s[at::SIGNALLING] = at::WSS;
        if !signal::wss_is_odd(s[at::PAYLOAD] as u32) {
            s[at::PAYLOAD] ^= 1 << random.below(4);
        }
        return;
    }
    s[at::SIGNALLING] = at::CGMS;
    let fields = random.within(1, 3);
    s[at::ODD] = fields & 1;
    s[at::EVEN] = fields >> 1;
    s[at::CHIP_CHECK] = random.within(0, 1);
}

/// A curve of either kind, from `kind` on.
fn place_curve(random: &mut Random, s: &mut Numbers, kind: usize) {
    if random.flag() {
        s[kind] = at::RATIO;
        s[kind + at::CURVE_P] = random.within(1, 3);
        s[kind + at::CURVE_Q] = random.within(1, 3);
        return;
    }
    s[kind] = at::BYTES;
    for place in 0..CURVE_BYTES {
        s[kind + at::CURVE_FIRST + place] = random.byte() as i32;
    }
}

/// Puts one or two odd numbers into the settings, or sets what can't be
/// together; often that is a fault.
pub fn spoil(random: &mut Random, s: &mut Numbers) {
    match random.below(8) {
        0 => s[at::STANDARD] = 1 - s[at::STANDARD],
        1 => [s[at::SQUARE], s[at::FOUR_TIMES]] = [1, 1],
        2 => s[at::PEDESTAL] = 1,
        _ => {
            for _ in 0..random.within(1, 2) {
                let place = random.below(SETTINGS as u64) as usize;
                s[place] = random.one_of(&ODD_ONES);
            }
        }
    }
}

/// An image of any bytes.
pub fn any_image(random: &mut Random) -> Image {
    std::array::from_fn(|_| random.byte())
}

/// The image that a chip holds after the settings are planned over `image` and played.
pub fn settled(image: &Image, settings: &Numbers) -> Image {
    let (planned, bytes) = packed(image, ALL_KNOWN, settings, NO_LIMIT);
    let mut after = *image;
    let plan = &bytes[..planned.length as usize];
    plain::play(&mut after, ALL_KNOWN, ADDRESS, ADDRESS, plan);
    after
}

/// The plain implementation's packed plan over a board, with its answer.
pub fn packed(
    image: &Image,
    known: u64,
    settings: &Numbers,
    limit: u32,
) -> (PlanAnswer, [u8; ROOM]) {
    let mut bytes = [BEFORE; ROOM];
    let planned = plain::plan(image, known, settings, ADDRESS, limit, &mut bytes);
    (planned, bytes)
}

/// An image that differs from what the settings want in some bits, at most `most`.
pub fn near_image(random: &mut Random, settings: &Numbers, most: i32) -> Image {
    let mut image = settled(&any_image(random), settings);
    for _ in 0..random.within(0, most) {
        flip_one(random, &mut image);
    }
    image
}

/// Flips one bit somewhere.
pub fn flip_one(random: &mut Random, image: &mut Image) {
    let register = random.below(REGISTERS as u64) as usize;
    image[register] ^= 1 << random.below(8);
}
