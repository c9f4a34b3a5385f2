//! Pairs of images: equal, near and far.

use crate::cases::{self, Image};
use crate::comparer::Comparer;
use crate::random::Random;
use crate::seeded::resized;
use plain::registers::REGISTERS;

/// The longest image tried.
const LONGEST: usize = 60;
/// Images whose every bit is flipped.
const BASES: usize = 16;
/// The most bits in which an image that is near another differs from it.
const FLIPPED: i32 = 4;

/// Every length on either side, and every bit of some images.
pub fn all(comparer: &mut Comparer, random: &mut Random) {
    let image = image(random);
    for length in 0..=LONGEST {
        let other = resized(&image, length, 0);
        comparer.compare(&other, &image);
        comparer.compare(&image, &other);
        comparer.compare(&other, &other);
    }
    for _ in 0..BASES {
        every_bit(comparer, random);
    }
}

/// An image beside itself with each bit flipped.
fn every_bit(comparer: &mut Comparer, random: &mut Random) {
    let image = image(random);
    for register in 0..REGISTERS {
        for bit in 0..u8::BITS {
            let mut other = image;
            other[register] ^= 1 << bit;
            comparer.compare(&image, &other);
            comparer.compare(&other, &image);
        }
    }
}

/// A seeded image: three in four can be read.
fn image(random: &mut Random) -> Image {
    let ground = cases::any_image(random);
    if random.once_in(4) {
        return ground;
    }
    cases::settled(&ground, &cases::accepted(random))
}

/// A seeded pair: the same image twice, one with other settings, one with a few bits flipped, or
/// two that have nothing to do with each other.
pub fn pair(random: &mut Random) -> (Image, Image) {
    let a = image(random);
    let mut b = a;
    match random.below(4) {
        0 => {}
        1 => b = cases::settled(&a, &cases::accepted(random)),
        2 => b = image(random),
        _ => {
            for _ in 0..random.within(1, FLIPPED) {
                cases::flip_one(random, &mut b);
            }
        }
    }
    (a, b)
}
