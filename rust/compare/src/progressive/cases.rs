//! Seeded settings and images of the ADV7195.

use crate::cases::{ADDRESS, BEFORE, ROOM};
use crate::random::Random;
use plain::progressive::fields::{first_setting, Field, Kind, SETTINGS, TABLE};
use plain::progressive::registers::{
    INTERPOLATION_BIT, MODE_3, MODE_6, PREPARING, REGISTERS, RESERVED,
};
use plain::progressive::{plan, play, Image};

/// Settings as numbers.
pub type Numbers = [i32; SETTINGS];

/// The number of Mode Register 6.
const MODE_REGISTER_6: usize = 38;
/// The longest delay, and the last code that isn't reserved.
const LAST_DELAY: i32 = 4;
const LAST_CODE: i32 = 2;
/// Numbers that are outside of something.
const ODD_ONES: [i32; 16] = [
    -1,
    2,
    3,
    4,
    5,
    7,
    8,
    16,
    255,
    256,
    (1 << 20) - 1,
    1 << 20,
    1 << 31,
    i32::MAX,
    -256,
    1 << 16,
];

/// The highest setting of a field.
fn highest(field: &Field) -> i32 {
    match field.kind {
        Kind::Delay => LAST_DELAY,
        Kind::LastReserved => LAST_CODE,
        _ => (1 << field.place.bits) - 1,
    }
}

/// Settings that are accepted. In a third of them 3E is wanted in 09.
pub fn accepted(random: &mut Random) -> Numbers {
    let mut settings = [0; SETTINGS];
    let fields = TABLE
        .iter()
        .flat_map(|field| (0..field.settings()).map(move |_| field));
    for (setting, field) in settings.iter_mut().zip(fields) {
        *setting = random.within(0, highest(field));
    }
    if random.once_in(3) {
        settings[first_setting(MODE_REGISTER_6)] = PREPARING.into();
    }
    settings
}

/// Puts one or two odd numbers into the settings; often that is a fault.
pub fn spoil(random: &mut Random, settings: &mut Numbers) {
    for _ in 0..random.within(1, 2) {
        let place = random.below(SETTINGS as u64) as usize;
        settings[place] = random.one_of(&ODD_ONES);
    }
}

/// An image of any bytes, often with 3E in 09.
pub fn any_image(random: &mut Random) -> Image {
    let mut image = std::array::from_fn(|_| random.byte());
    if random.once_in(4) {
        image[MODE_6] = PREPARING;
    }
    image
}

/// The plain implementation's packed plan over an image.
pub fn packed(image: &Image, settings: &Numbers) -> Vec<u8> {
    let mut bytes = vec![BEFORE; ROOM];
    let answer = plan(image, settings, ADDRESS, &mut bytes);
    bytes.truncate(answer.length as usize);
    bytes
}

/// The image that a chip holds after the settings are planned over `image` and played.
pub fn settled(image: &Image, settings: &Numbers) -> Image {
    let mut after = *image;
    play(&mut after, ADDRESS, ADDRESS, &packed(image, settings));
    after
}

/// An image that differs from what the settings want in some bits, at most `most`, and then in
/// half of the cases in interpolation; often 3E is in 09.
pub fn near_image(random: &mut Random, settings: &Numbers, most: i32) -> Image {
    let mut image = settled(&any_image(random), settings);
    for _ in 0..random.within(0, most) {
        flip_one(random, &mut image);
    }
    if random.flag() {
        image[MODE_3] ^= INTERPOLATION_BIT;
    }
    if random.once_in(4) {
        image[MODE_6] = PREPARING;
    }
    image
}

/// Flips one bit somewhere, in half of the cases below the reserved registers.
pub fn flip_one(random: &mut Random, image: &mut Image) {
    let end = random.one_of(&[RESERVED, REGISTERS]);
    let register = random.below(end as u64) as usize;
    image[register] ^= 1 << random.below(8);
}
