//! Captions: every character, number, count, room, address, length, byte and disturbed bit.

use crate::both::TRANSACTION;
use crate::cases::{self, Image, ADDRESS, BEFORE};
use crate::comparer::Comparer;
use crate::damage::packed;
use crate::random::Random;
use crate::seeded::resized;
use crate::sending;
use crate::systematic::every_address;
use plain::registers::{CAPTIONS, CAPTION_BYTES};
use plain::{with_parity, ALL_KNOWN, CAPTION_ROOM, PAIR};

/// The pairs, as they are read back.
pub(crate) const EXTENDED: u32 = 0;
pub(crate) const ORDINARY: u32 = 1;
/// The first register of each.
pub(crate) const FIRSTS: [u32; 2] = [0x11, 0x13];
/// The last character.
pub(crate) const LAST: i32 = 0x7F;
/// How many characters there are.
const CHARACTERS: usize = 0x80;
/// The most characters tried in a pair.
pub(crate) const MOST_CHARACTERS: usize = 3;
/// The most room tried.
pub(crate) const MOST_ROOM: usize = 10;
/// The longest image tried.
const LONGEST: usize = 60;
/// Plans that are damaged in every bit.
const PLANS: usize = 60;
/// The numbers tried as characters, at each place.
const TRIED: std::ops::RangeInclusive<i32> = -300..=600;
/// Wide ones, some of them right in their lowest bits.
pub(crate) const WIDE: [i32; 8] = [
    i32::MIN,
    i32::MAX,
    1 << 16,
    -(1 << 16),
    (1 << 8) + 0x48,
    (1 << 16) + 0x48,
    i32::MIN + 0x48,
    -0x80,
];
/// Numbers that are no pair's, some of them right in their lowest bits.
pub(crate) const NO_PAIRS: [u32; 8] = [2, 3, 29, 0x100, 0x101, 0x1_0001, 1 << 31, u32::MAX];

/// Everything systematic.
pub fn all(comparer: &mut Comparer, random: &mut Random) {
    characters(comparer, random);
    numbers(comparer, random);
    counts_and_rooms(comparer, random);
    lengths_and_addresses(comparer, random);
    every_byte(comparer, random);
    for _ in 0..PLANS {
        disturbed(comparer, random);
    }
}

/// Two characters.
fn two(random: &mut Random) -> Vec<i32> {
    (0..PAIR).map(|_| random.within(0, LAST)).collect()
}

/// Every two characters in each pair, alone and beside seeded ones.
fn characters(comparer: &mut Comparer, random: &mut Random) {
    let room = [BEFORE; MOST_ROOM];
    for pair in 0..(CHARACTERS * CHARACTERS) as i32 {
        let pair = [pair / (LAST + 1), pair % (LAST + 1)];
        let other = two(random);
        comparer.plan_captions(&pair, &[], ADDRESS, &room);
        comparer.plan_captions(&[], &pair, ADDRESS, &room);
        comparer.plan_captions(&pair, &other, ADDRESS, &room);
        comparer.plan_captions(&other, &pair, ADDRESS, &room);
    }
}

/// Numbers from below all characters to above, at each place, alone and beside a good pair.
fn numbers(comparer: &mut Comparer, random: &mut Random) {
    let room = [BEFORE; MOST_ROOM];
    for number in TRIED.chain(WIDE) {
        for place in 0..PAIR {
            let mut pair = two(random);
            pair[place] = number;
            let other = two(random);
            for (extended, ordinary) in [
                (&pair, &vec![]),
                (&vec![], &pair),
                (&pair, &other),
                (&other, &pair),
            ] {
                comparer.plan_captions(extended, ordinary, ADDRESS, &room);
            }
        }
    }
}

/// Every count of characters in each pair with every room, at a good address and a bad one.
fn counts_and_rooms(comparer: &mut Comparer, random: &mut Random) {
    let most: Vec<i32> = (0..2 * MOST_CHARACTERS)
        .map(|_| random.within(0, LAST))
        .collect();
    for extended in 0..=MOST_CHARACTERS {
        for ordinary in 0..=MOST_CHARACTERS {
            for room in 0..=MOST_ROOM {
                let pairs = (&most[..extended], &most[MOST_CHARACTERS..][..ordinary]);
                let room = &[BEFORE; MOST_ROOM][..room];
                comparer.plan_captions(pairs.0, pairs.1, ADDRESS, room);
                comparer.plan_captions(pairs.0, pairs.1, ADDRESS + 1, room);
                comparer.plan_captions(pairs.0, &[LAST + 1, 0], ADDRESS, room);
            }
        }
    }
}

/// Three plans of captions: each pair alone, and both.
pub(crate) fn three(random: &mut Random) -> Vec<Vec<u8>> {
    let pairs = [
        (two(random), vec![]),
        (vec![], two(random)),
        (two(random), two(random)),
    ];
    let plan = |(extended, ordinary): &(Vec<i32>, Vec<i32>)| planned(extended, ordinary);
    pairs.iter().map(plan).collect()
}

/// The plain implementation's plan.
fn planned(extended: &[i32], ordinary: &[i32]) -> Vec<u8> {
    let mut bytes = [0; CAPTION_ROOM];
    let answer = plain::plan_captions(extended, ordinary, ADDRESS, &mut bytes);
    bytes[..answer.length as usize].to_vec()
}

/// Every length of image, and many addresses in each place of one.
fn lengths_and_addresses(comparer: &mut Comparer, random: &mut Random) {
    let image = with_captions(random);
    let mut plans = three(random);
    plans.extend([vec![0x00], vec![0x01], vec![]]);
    for length in 0..=LONGEST {
        let given = resized(&image, length, 0);
        for pair in [EXTENDED, ORDINARY].into_iter().chain(NO_PAIRS) {
            comparer.read_captions(&given, ALL_KNOWN, pair);
            comparer.read_captions(&given, random.bits(), pair);
        }
        for plan in &plans {
            comparer.play_both(&given, random.bits(), ADDRESS, ADDRESS, plan);
            comparer.play_both(&given, random.bits(), ADDRESS + 1, ADDRESS, plan);
        }
    }
    for address in every_address() {
        comparer.plan_captions(&two(random), &two(random), address, &[BEFORE; MOST_ROOM]);
        comparer.plan_captions(&[], &[], address, &[]);
        for plan in &plans {
            let known = random.bits();
            comparer.play_both(&image, known, address, ADDRESS, plan);
            comparer.play_both(&image, known, ADDRESS, address, plan);
            comparer.play_both(&image, known, address, address, plan);
        }
    }
}

/// Every two bytes of each pair: read, and played.
fn every_byte(comparer: &mut Comparer, random: &mut Random) {
    let image = with_captions(random);
    for bytes in 0..=u16::MAX {
        for pair in [EXTENDED, ORDINARY] {
            let first = FIRSTS[pair as usize];
            let data = bytes.to_be_bytes();
            let mut held = image;
            held[first as usize..][..PAIR].copy_from_slice(&data);
            comparer.read_captions(&held, ALL_KNOWN | random.bits(), EXTENDED);
            comparer.read_captions(&held, ALL_KNOWN | random.bits(), ORDINARY);
            let mut data = data.into_iter();
            let plan = packed(&[(first, PAIR as u32)], || data.next().unwrap_or_default());
            comparer.play_captions(&image, random.bits(), ADDRESS, ADDRESS, &plan);
        }
    }
    for pair in 0..=u32::from(u16::MAX) {
        comparer.read_captions(&image, ALL_KNOWN, pair);
    }
}

/// Plans of captions with every bit flipped, cut and extended, for both players.
fn disturbed(comparer: &mut Comparer, random: &mut Random) {
    let image = cases::any_image(random);
    for plan in three(random) {
        for length in 0..=plan.len() + 3 {
            for more in [0x00, 0x01, 0x80, 0xFF] {
                let resized = resized(&plan, length, more);
                comparer.play_both(&image, random.bits(), ADDRESS, ADDRESS, &resized);
            }
        }
        for place in 0..8 * plan.len() {
            for second in 0..=place {
                let mut flipped = plan.clone();
                flipped[place / 8] ^= 0x80 >> (place % 8);
                // With itself, one bit alone; else two.
                if second < place {
                    flipped[second / 8] ^= 0x80 >> (second % 8);
                }
                comparer.play_both(&image, random.bits(), ADDRESS, ADDRESS, &flipped);
            }
        }
        sending::every(comparer, TRANSACTION, &plan);
    }
}

/// An image with characters in its caption registers.
pub(crate) fn with_captions(random: &mut Random) -> Image {
    let mut image = cases::any_image(random);
    for byte in &mut image[CAPTIONS..][..CAPTION_BYTES] {
        *byte = with_parity(random.within(0, LAST) as u8);
    }
    image
}
