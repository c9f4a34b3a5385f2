//! Limits on a transaction's data: seeded, and every one on boards that need much.

use crate::boards::of_kind;
use crate::cases::{self, Image, Numbers, ADDRESS, BEFORE, ROOM};
use crate::comparer::Comparer;
use crate::flags::{FIELDS, PARTS};
use crate::random::Random;
use plain::fields as at;
use plain::registers::REGISTERS;
use plain::{ALL_KNOWN, NO_LIMIT};

/// The least limit, and the highest that is tried.
const LEAST: u32 = 4;
const HIGHEST: u32 = 60;
/// One in so many seeded limits is a wrong one.
const SELDOM: u64 = 16;
/// Boards for each limit.
const BOARDS: usize = 24;

/// A limit: none in a third of the cases, else from the least on.
pub fn right(random: &mut Random) -> u32 {
    match random.below(3) {
        0 => NO_LIMIT,
        _ => random.within(LEAST as i32, NO_LIMIT as i32) as u32,
    }
}

/// The same, seldom with one outside what is right: near it, or right when it is cut to
/// fewer bits.
pub fn any(random: &mut Random) -> u32 {
    if !random.once_in(SELDOM) {
        return right(random);
    }
    let low = random.below(LEAST.into()) as u32;
    let high = random.within(NO_LIMIT as i32 + 1, HIGHEST as i32) as u32;
    let place = random.within(6, 31);
    let wide = right(random) | 1 << place;
    random.one_of(&[low, high, wide, u32::MAX])
}

/// Every limit up to past the last, and wide ones, on boards of which most registers are
/// needed, with rooms around the packed plan's length and other faults beside the limit.
pub fn all(comparer: &mut Comparer, random: &mut Random) {
    let wide = (6..u32::BITS).flat_map(|place| [1 << place, 1 << place | NO_LIMIT]);
    for limit in (0..=HIGHEST).chain(wide).chain([u32::MAX]) {
        for kind in [at::OFF, at::CGMS, at::WSS] {
            for _ in 0..BOARDS {
                let settings = of_kind(random, kind);
                let (image, known) = board(random, &settings);
                rooms(comparer, (&image, known), &settings, limit);
            }
            let settings = of_kind(random, kind);
            faults(comparer, random, &settings, limit);
        }
    }
}

/// A board whose fields' registers are needed but for a few, some of them unknown.
fn board(random: &mut Random, settings: &Numbers) -> (Image, u64) {
    let mut image = cases::settled(&cases::any_image(random), settings);
    let seldom = if random.flag() { random.bits() } else { 0 };
    let kept = random.bits() & random.bits() & seldom;
    for register in (0..REGISTERS).filter(|register| (FIELDS & !kept) >> register & 1 == 1) {
        image[register] = !image[register];
    }
    let unknown = random.bits() & random.bits() & seldom & !PARTS;
    (image, ALL_KNOWN & !unknown)
}

/// Planning with room on both sides of the packed plan's length, and for any.
fn rooms(comparer: &mut Comparer, board: (&Image, u64), settings: &Numbers, limit: u32) {
    let (image, known) = board;
    let length = cases::packed(image, known, settings, limit).0.length as usize;
    for room in [length.saturating_sub(1), length, ROOM] {
        let room = &[BEFORE; ROOM][..room];
        comparer.plan(image, known, settings, ADDRESS, limit, room);
    }
}

/// Each other fault with the limit: it comes after 1 and 2, and before all others.
fn faults(comparer: &mut Comparer, random: &mut Random, settings: &Numbers, limit: u32) {
    let image = cases::any_image(random);
    let mut spoilt = *settings;
    spoilt[at::STANDARD] = -1;
    comparer.plan(&image[1..], ALL_KNOWN, settings, ADDRESS, limit, &[]);
    comparer.plan(&image, ALL_KNOWN, settings, ADDRESS + 1, limit, &[]);
    comparer.plan(&image, ALL_KNOWN, &settings[1..], ADDRESS, limit, &[]);
    comparer.plan(&image, ALL_KNOWN, &spoilt, ADDRESS, limit, &[]);
    comparer.plan(&image, 0, settings, ADDRESS, limit, &[]);
    comparer.plan(&image, ALL_KNOWN, settings, ADDRESS, limit, &[]);
}
