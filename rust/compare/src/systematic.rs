//! Systematic cases: every length, address, bit, byte and number near a limit.

use crate::boards;
use crate::both::TRANSACTION;
use crate::captions;
use crate::cases::{self, Image, Numbers, ADDRESS, BEFORE, ROOM};
use crate::comparer::Comparer;
use crate::flags::{self, PARTS};
use crate::limits;
use crate::pairs;
use crate::random::Random;
use crate::reasons;
use crate::seeded::resized;
use crate::sending;
use plain::fields::{self as at, SETTINGS};
use plain::registers::{self as reg, REGISTERS};
use plain::signal::LAST_PAYLOAD;
use plain::{ALL_KNOWN, NO_LIMIT};

/// The longest image or settings tried.
const LONGEST: usize = 60;
/// Plans that are damaged in every bit, and lent every room.
const PLANS: usize = 200;
/// The most bits that are wrong in the images those plans start from.
const FLIPPED: i32 = 8;
/// Settings whose every number is tried.
const BASES: usize = 4;
/// The numbers tried at every place.
const TRIED: std::ops::RangeInclusive<i32> = -300..=2100;
/// Addresses tried one by one.
const ADDRESSES: u32 = 600;
/// Wide numbers.
const WIDE: [i32; 6] = [
    i32::MIN,
    i32::MAX,
    1 << 16,
    -(1 << 16),
    LAST_PAYLOAD,
    LAST_PAYLOAD + 1,
];
/// Low signalling bytes tried under every pair of the other two.
const LOWS: [u8; 6] = [0x00, 0x01, 0x07, 0x80, 0xA4, 0xFF];

/// All of it.
pub fn all(comparer: &mut Comparer, seed: u64) {
    let mut random = Random::new(seed);
    lengths(comparer, &mut random);
    addresses(comparer, &mut random);
    for _ in 0..PLANS {
        plans(comparer, &mut random);
    }
    short_plans(comparer, &mut random);
    for base in 0..BASES {
        numbers(comparer, &mut random, base);
        registers(comparer, &mut random, base);
    }
    signalling_settings(comparer, &mut random);
    signalling_images(comparer, &mut random);
    pairs::all(comparer, &mut random);
    captions::all(comparer, &mut random);
    boards::all(comparer, &mut random);
    limits::all(comparer, &mut random);
    reasons::all(comparer, &mut random);
}

/// A sound case: an image, settings and the image they make.
fn sound(random: &mut Random) -> (Image, Numbers, Image) {
    let settings = cases::accepted(random);
    let image = cases::any_image(random);
    (image, settings, cases::settled(&image, &settings))
}

/// Every length of image and of settings, everything else sound or wrong, all registers known
/// or none.
fn lengths(comparer: &mut Comparer, random: &mut Random) {
    let (image, settings, settled) = sound(random);
    let mut wrong = settings;
    wrong[at::STANDARD] = -1;
    let mut reserved = settled;
    reserved[reg::MODE_0] |= reg::STANDARD_BITS;
    for (length, known) in (0..=LONGEST).flat_map(|length| [(length, ALL_KNOWN), (length, 0)]) {
        let given = resized(&image, length, 0);
        let made = resized(&settled, length, 0);
        let fewer = resized(&settings, length, 0);
        for address in [ADDRESS, ADDRESS + 1] {
            for numbers in [&settings, &wrong] {
                for limit in [NO_LIMIT, NO_LIMIT + 1] {
                    comparer.plan(&given, known, numbers, address, limit, &[BEFORE; ROOM]);
                    comparer.plan(&given, known, numbers, address, limit, &[]);
                }
            }
            let limit = limits::any(random);
            comparer.plan(&given, known, &fewer, address, limit, &[BEFORE; ROOM]);
            comparer.plan(&image, known, &fewer, address, limit, &[BEFORE; ROOM]);
            comparer.plan(&image, known, &fewer, address, limit, &[]);
            comparer.play(&given, known, address, ADDRESS, &[0x00]);
            comparer.play(&given, known, ADDRESS, address, &[0x01]);
        }
        for lent in [SETTINGS, length] {
            comparer.read(&made, known, &vec![BEFORE as i32; lent]);
            comparer.read(&settled, known, &vec![BEFORE as i32; lent]);
            comparer.read(&reserved, known, &vec![BEFORE as i32; lent]);
            comparer.house(&vec![BEFORE as i32; lent]);
        }
    }
}

/// The addresses that are tried: all up to a number, and ones around the powers of two.
pub(crate) fn every_address() -> impl Iterator<Item = u32> {
    let powers = (8..u32::BITS).map(|place| 1 << place);
    let wide = powers.flat_map(|power: u32| [power - 1, power, power + 2, power | ADDRESS]);
    (0..=ADDRESSES).chain(wide).chain([u32::MAX, u32::MAX - 1])
}

/// Many addresses, for each place of one.
fn addresses(comparer: &mut Comparer, random: &mut Random) {
    let (image, settings, _) = sound(random);
    let (planned, bytes) = cases::packed(&image, ALL_KNOWN, &settings, NO_LIMIT);
    let plan = &bytes[..planned.length as usize];
    for address in every_address() {
        let known = flags::planning(random);
        let limit = limits::any(random);
        comparer.plan(&image, known, &settings, address, limit, &[BEFORE; ROOM]);
        for bytes in [plan, &[0x00], &[0x01], &[]] {
            comparer.play(&image, known, address, ADDRESS, bytes);
            comparer.play(&image, known, ADDRESS, address, bytes);
            comparer.play(&image, known, address, address, bytes);
        }
    }
}

/// One plan: every room, every cut, extended, and every bit flipped.
fn plans(comparer: &mut Comparer, random: &mut Random) {
    let settings = cases::accepted(random);
    let image = cases::near_image(random, &settings, FLIPPED);
    let known = flags::planning(random) | PARTS;
    let limit = limits::right(random);
    let (planned, bytes) = cases::packed(&image, known, &settings, limit);
    let plan = &bytes[..planned.length as usize];
    for room in 0..=plan.len() + 3 {
        let empty = &[BEFORE; ROOM][..room];
        comparer.plan(&image, known, &settings, ADDRESS, limit, &bytes[..room]);
        comparer.plan(&image, known, &settings, ADDRESS, limit, empty);
    }
    for length in 0..=plan.len() + 3 {
        for more in [0x00, 0x01, 0xFF] {
            let resized = resized(plan, length, more);
            comparer.play(&image, known, ADDRESS, ADDRESS, &resized);
            sending::every(comparer, TRANSACTION, &resized);
        }
    }
    for place in 0..8 * plan.len() {
        let mut flipped = plan.to_vec();
        flipped[place / 8] ^= 0x80 >> (place % 8);
        comparer.play(&image, known, ADDRESS, ADDRESS, &flipped);
        sending::every(comparer, TRANSACTION, &flipped);
    }
}

/// Every plan of one or two bytes, and every single register written.
fn short_plans(comparer: &mut Comparer, random: &mut Random) {
    let image = cases::any_image(random);
    for word in 0..=u16::MAX {
        comparer.play(&image, random.bits(), ADDRESS, ADDRESS, &word.to_be_bytes());
        comparer.transaction(&word.to_be_bytes(), 0, &[BEFORE; 2]);
    }
    for byte in 0..=u8::MAX {
        let known = random.bits();
        comparer.play(&image, known, ADDRESS, ADDRESS, &[byte]);
        comparer.play(&image, known, ADDRESS, ADDRESS + 2, &[byte]);
        sending::every(comparer, TRANSACTION, &[byte]);
        // One transaction of one byte, or of four, at each subaddress.
        let second = (byte & 0x0F) << 4;
        comparer.play(
            &image,
            known,
            ADDRESS,
            ADDRESS,
            &[0x04 | byte >> 6, byte << 2, 0x40 | second >> 4, second],
        );
        comparer.play(
            &image,
            known,
            ADDRESS,
            ADDRESS,
            &[
                0x04 | byte >> 4,
                second | 0x01,
                0x15,
                0x59,
                0x9D,
                0xE2,
                0x40,
            ],
        );
    }
}

/// Every number of the settings, from below all ranges to above nearly all.
fn numbers(comparer: &mut Comparer, random: &mut Random, base: usize) {
    let mut settings = cases::accepted(random);
    while (
        settings[at::STANDARD] as usize,
        settings[at::SIGNALLING] != at::OFF,
    ) != (base % 2, base < 2)
    {
        settings = cases::accepted(random);
    }
    let image = cases::settled(&cases::any_image(random), &settings);
    for place in 0..SETTINGS {
        for value in TRIED.chain(WIDE) {
            let mut changed = settings;
            changed[place] = value;
            let known = flags::planning(random) | PARTS;
            let limit = limits::right(random);
            comparer.plan(&image, known, &changed, ADDRESS, limit, &[BEFORE; ROOM]);
        }
    }
    for p in -1..=5 {
        for q in -1..=5 {
            for kind in [at::CURVE_A, at::CURVE_B] {
                let mut changed = settings;
                changed[kind..][..at::CURVE_FIRST].copy_from_slice(&[at::RATIO, p, q]);
                let limit = limits::right(random);
                comparer.plan(&image, ALL_KNOWN, &changed, ADDRESS, limit, &[BEFORE; ROOM]);
            }
        }
    }
}

/// Every byte of every register read.
fn registers(comparer: &mut Comparer, random: &mut Random, base: usize) {
    let mut settings = cases::accepted(random);
    while settings[at::STANDARD] as usize != base % 2 {
        settings = cases::accepted(random);
    }
    let image = cases::settled(&cases::any_image(random), &settings);
    for register in 0..REGISTERS {
        for byte in 0..=u8::MAX {
            let mut changed = image;
            changed[register] = byte;
            for known in [ALL_KNOWN, flags::reading(random)] {
                comparer.read(&changed, known, &[BEFORE as i32; SETTINGS]);
            }
        }
    }
}

/// Field 11 of settings: every payload, and every mixture of its other numbers.
fn signalling_settings(comparer: &mut Comparer, random: &mut Random) {
    let (image, mut settings, _) = sound(random);
    settings[at::PEDESTAL] = 0;
    for standard in [at::NTSC, at::PAL] {
        settings[at::STANDARD] = standard;
        for kind in -1..=4 {
            for switches in 0..4 * 4 * 4 {
                let [odd, even, check] =
                    [switches & 3, switches >> 2 & 3, switches >> 4].map(|number| number - 1);
                for payload in [
                    -1,
                    0,
                    1,
                    3,
                    LAST_PAYLOAD,
                    LAST_PAYLOAD + 1,
                    LAST_PAYLOAD + 2,
                ] {
                    settings[at::SIGNALLING..=at::CHIP_CHECK]
                        .copy_from_slice(&[kind, payload, odd, even, check]);
                    let known = flags::planning(random) | PARTS;
                    let limit = limits::right(random);
                    comparer.plan(&image, known, &settings, ADDRESS, limit, &[BEFORE; ROOM]);
                }
            }
        }
        let kind = [at::CGMS, at::WSS][standard as usize];
        for payload in 0..=LAST_PAYLOAD {
            settings[at::SIGNALLING..=at::CHIP_CHECK].copy_from_slice(&[kind, payload, 1, 0, 0]);
            let known = flags::planning(random) | PARTS;
            let limit = limits::right(random);
            comparer.plan(&image, known, &settings, ADDRESS, limit, &[BEFORE; ROOM]);
        }
    }
}

/// Field 11 of images: every pair of the upper two bytes, and every payload
/// that is sound, with each lower byte.
fn signalling_images(comparer: &mut Comparer, random: &mut Random) {
    for standard in [at::NTSC, at::PAL] {
        let mut settings = cases::accepted(random);
        while settings[at::STANDARD] != standard {
            settings = cases::accepted(random);
        }
        let mut image = cases::settled(&cases::any_image(random), &settings);
        for pair in 0..=u16::MAX {
            [image[reg::SIGNAL_TOP], image[reg::SIGNAL_MIDDLE]] = pair.to_be_bytes();
            for low in LOWS {
                image[reg::SIGNAL_LOW] = low;
                let known = ALL_KNOWN | random.bits();
                comparer.read(&image, known, &[BEFORE as i32; SETTINGS]);
            }
        }
        let kind = [at::CGMS, at::WSS][standard as usize];
        for payload in 0..=LAST_PAYLOAD {
            settings[at::SIGNALLING..=at::CHIP_CHECK].copy_from_slice(&[
                kind,
                payload,
                0,
                1,
                payload & 1,
            ]);
            let image = cases::settled(&image, &settings);
            comparer.read(&image, ALL_KNOWN, &[BEFORE as i32; SETTINGS]);
        }
    }
}
