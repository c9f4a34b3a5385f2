//! Why registers are sent: systematic boards, and some registers of a seeded one.

use crate::boards::of_kind;
use crate::cases::{self, Image, Numbers};
use crate::comparer::Comparer;
use crate::flags::{FIELDS, PARTS, PAST};
use crate::limits;
use crate::random::Random;
use crate::seeded::resized;
use crate::why_calls::Asked;
use plain::fields::{self as at, SETTINGS};
use plain::registers::{self as reg, span, REGISTERS};
use plain::{PlanAnswer, ALL_KNOWN, NO_LIMIT};

/// Kinds of signalling.
const KINDS: [i32; 3] = [at::OFF, at::CGMS, at::WSS];
/// The longest image or settings, and the highest limit tried.
const LONGEST: usize = 60;
/// Limits that cut short runs, and none.
const LIMITS: [u32; 6] = [4, 5, 6, 7, 9, NO_LIMIT];
/// Numbers tried at every place of the settings.
const FAULTS: std::ops::RangeInclusive<i32> = -2..=20;
/// Windows of which every set of registers with fields is tried: those that bridges can join.
const WINDOWS: [(usize, usize); 4] = [
    (reg::MODE_0, 6),
    (reg::WORD - 1, 7),
    (reg::SIGNAL_TOP, 8),
    (reg::BRIGHTNESS, 7),
];
/// One in so many seeded plans is asked about in every register.
const SELDOM: u64 = 32;
/// Registers asked about in the others, and the numbers that they are below.
const FEW: u32 = 4;
const BELOW: u64 = 61;

/// Everything systematic.
pub fn all(comparer: &mut Comparer, random: &mut Random) {
    lengths(comparer, random);
    for kind in KINDS {
        let settings = of_kind(random, kind);
        let image = cases::settled(&cases::any_image(random), &settings);
        every_bit(comparer, &image, &settings);
        every_byte(comparer, &image, &settings);
        every_limit(comparer, random, &image, &settings);
        faults(comparer, &image, &settings);
    }
    let settings = of_kind(random, at::CGMS);
    let image = cases::settled(&cases::any_image(random), &settings);
    every_two(comparer, random, &image, &settings);
    every_set(comparer, &image, &settings);
}

/// Every length of the image and of the settings, with faults that come later.
fn lengths(comparer: &mut Comparer, random: &mut Random) {
    let settings = cases::accepted(random);
    let image = cases::any_image(random);
    let mut wrong = settings;
    wrong[at::STANDARD] = -1;
    for length in 0..=LONGEST {
        let given = resized(&image, length, 0);
        for numbers in [&settings, &wrong] {
            let fewer = resized(numbers, length, 0);
            for limit in [NO_LIMIT, NO_LIMIT + 1, limits::any(random)] {
                for known in [ALL_KNOWN, 0, PAST] {
                    let boards = [
                        (&given[..], &numbers[..]),
                        (&given, &fewer),
                        (&image, &fewer),
                    ];
                    for (image, settings) in boards {
                        let asked = Asked {
                            image,
                            known,
                            settings,
                            limit,
                        };
                        comparer.why_all(&asked);
                    }
                }
            }
        }
    }
}

/// Asks about every register of a board known in full but for some registers.
fn ask(comparer: &mut Comparer, image: &Image, unknown: u64, settings: &Numbers, limit: u32) {
    let known = ALL_KNOWN & !unknown;
    comparer.why_all(&Asked {
        image,
        known,
        settings,
        limit,
    });
}

/// Each bit wrong alone.
fn every_bit(comparer: &mut Comparer, image: &Image, settings: &Numbers) {
    for register in 0..REGISTERS {
        for bit in 0..u8::BITS {
            let mut image = *image;
            image[register] ^= 1 << bit;
            ask(comparer, &image, 0, settings, NO_LIMIT);
        }
    }
}

/// Each byte in each register, known and not: two fields at once, must-be-zero bits beside
/// them. The register itself is asked about.
fn every_byte(comparer: &mut Comparer, image: &Image, settings: &Numbers) {
    for register in 0..REGISTERS {
        for byte in 0..=u8::MAX {
            let mut image = *image;
            image[register] = byte;
            for known in [ALL_KNOWN, ALL_KNOWN & !(1 << register)] {
                let asked = Asked {
                    image: &image,
                    known,
                    settings,
                    limit: NO_LIMIT,
                };
                comparer.why(&asked, register as u32);
            }
        }
    }
}

/// Every limit up to past the last, on a board whose every register is wrong, and with some of
/// them unknown.
fn every_limit(comparer: &mut Comparer, random: &mut Random, image: &Image, settings: &Numbers) {
    let wrong = image.map(|byte| !byte);
    for limit in 0..=LONGEST as u32 {
        ask(comparer, &wrong, 0, settings, limit);
        ask(comparer, &wrong, FIELDS & !PARTS, settings, limit);
        let some = random.bits() & !PARTS;
        ask(comparer, &wrong, some, settings, limit);
        ask(comparer, image, some, settings, limit);
    }
}

/// Numbers that are a fault in most places, at every place, with registers unknown besides.
fn faults(comparer: &mut Comparer, image: &Image, settings: &Numbers) {
    for place in 0..SETTINGS {
        for number in FAULTS.chain([i32::MIN, i32::MAX]) {
            let mut settings = *settings;
            settings[place] = number;
            for known in [ALL_KNOWN, 0] {
                let asked = Asked {
                    image,
                    known,
                    settings: &settings,
                    limit: NO_LIMIT,
                };
                comparer.why(&asked, reg::HUE as u32);
            }
        }
    }
}

/// A board with one bit wrong of each register of a map, one that its field has.
fn spoilt(image: &Image, wrong: u64) -> Image {
    let mut image = *image;
    for register in (0..REGISTERS).filter(|register| wrong >> register & 1 == 1) {
        image[register] ^= match register {
            reg::MODE_1 => reg::FOUR_TIMES_BIT,
            reg::MODE_2 => reg::SQUARE_BIT,
            // Must be zero.
            reg::BRIGHTNESS => !reg::BRIGHTNESS_BITS,
            _ => 1,
        };
    }
    image
}

/// Every two registers wrong, with a small limit or none, and with an unknown one beside them.
fn every_two(comparer: &mut Comparer, random: &mut Random, image: &Image, settings: &Numbers) {
    let registers = || (0..REGISTERS).filter(|register| FIELDS >> register & 1 == 1);
    for first in registers() {
        for second in registers().filter(|&second| first < second) {
            let image = spoilt(image, 1 << first | 1 << second);
            let limit = random.one_of(&LIMITS);
            ask(comparer, &image, 0, settings, NO_LIMIT);
            ask(comparer, &image, 0, settings, limit);
            let unknown = 1 << random.below(REGISTERS as u64);
            ask(comparer, &image, unknown & !PARTS, settings, limit);
        }
    }
}

/// Every set of the registers of some windows, with limits that cut their runs.
fn every_set(comparer: &mut Comparer, image: &Image, settings: &Numbers) {
    for (first, count) in WINDOWS {
        let window = span(first, count) & FIELDS;
        let mut set = window;
        while set != 0 {
            for limit in LIMITS {
                ask(comparer, &spoilt(image, set), 0, settings, limit);
            }
            set = (set - 1) & window;
        }
    }
}

/// Asks about some registers of what was just planned, seldom about all.
pub fn some(
    comparer: &mut Comparer,
    random: &mut Random,
    asked: &Asked,
    planned: (PlanAnswer, &[u8]),
) {
    if random.once_in(SELDOM) {
        return comparer.why_all(asked);
    }
    let registers = (0..FEW).map(|_| random.below(BELOW) as u32);
    comparer.why_planned(asked, planned, registers);
}
