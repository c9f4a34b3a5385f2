//! Systematic cases of the ADV7195: every length, address, bit, byte, order and number near an end of a range.

use super::calls::TRANSACTION;
use super::cases::{self, Numbers};
use super::lists::{self, List};
use crate::cases::{ADDRESS, BEFORE, ROOM};
use crate::comparer::Comparer;
use crate::random::Random;
use crate::seeded::resized;
use crate::sending;
use crate::systematic::every_address;
use plain::progressive::fields::{first_setting, FIELDS, SETTINGS, TABLE};
use plain::progressive::registers::{MODE_0, MODE_3, MODE_6, REGISTERS};
use plain::progressive::Image;

/// The longest image or settings tried.
const LONGEST: usize = 64;
/// Plans that are damaged in every bit, and lent every room.
const PLANS: usize = 60;
/// The most bits that are wrong in the images those plans start from.
const FLIPPED: i32 = 8;
/// The numbers tried at every place, and wide ones.
const TRIED: std::ops::RangeInclusive<i32> = -20..=300;
const WIDE: [i32; 8] = [
    i32::MIN,
    i32::MAX,
    1 << 16,
    -(1 << 16),
    (1 << 20) - 1,
    1 << 20,
    (1 << 20) + 1,
    1 << 30,
];
/// Transactions of which every list is played: 3E and another byte to 09, MR36 on and off, with 3E or another byte
/// behind it, and a reserved register.
const SENT: [(u32, &[u8]); 8] = [
    (0x09, &[0x3E]),
    (0x09, &[0x3F]),
    (0x03, &[0x40]),
    (0x03, &[0x00]),
    (0x03, &[0x40, 0, 0, 0, 0, 0, 0x3E]),
    (0x02, &[0, 0x00, 0, 0, 0, 0, 0, 0xA5]),
    (0x08, &[0x3E]),
    (0x0A, &[0x3E]),
];
/// The most transactions of those lists.
const MOST_SENT: u32 = 4;
/// 03 and 09 before them.
const HELD: [(u8, u8); 4] = [(0x00, 0x00), (0x00, 0x3E), (0x40, 0x00), (0x40, 0x3E)];

/// All of it.
pub fn all(comparer: &mut Comparer, seed: u64) {
    let mut random = Random::new(seed);
    lengths(comparer, &mut random);
    addresses(comparer, &mut random);
    for _ in 0..PLANS {
        plans(comparer, &mut random);
    }
    short_plans(comparer, &mut random);
    orders(comparer);
    numbers(comparer, &mut random);
    registers(comparer, &mut random);
}

/// A sound case: an image, settings and the image they make.
fn sound(random: &mut Random) -> (Image, Numbers, Image) {
    let settings = cases::accepted(random);
    let image = cases::any_image(random);
    (image, settings, cases::settled(&image, &settings))
}

/// Every length of image and of settings, everything else sound or wrong.
fn lengths(comparer: &mut Comparer, random: &mut Random) {
    let (image, settings, settled) = sound(random);
    let mut wrong = settings;
    wrong[0] = -1;
    let mut reserved = settled;
    reserved[MODE_0] = 0xFF;
    for length in 0..=LONGEST {
        let given = resized(&image, length, 0);
        let fewer = resized(&settings, length, 0);
        for address in [ADDRESS, ADDRESS + 1] {
            for room in [&[BEFORE; ROOM][..], &[]] {
                comparer.progressive_plan(&given, &settings, address, room);
                comparer.progressive_plan(&given, &wrong, address, room);
                comparer.progressive_plan(&given, &fewer, address, room);
                comparer.progressive_plan(&image, &fewer, address, room);
            }
            comparer.progressive_play(&given, address, ADDRESS, &[0x00]);
            comparer.progressive_play(&given, ADDRESS, address, &[0x01]);
        }
        for image in [settled, reserved] {
            let made = resized(&image, length, 0);
            for lent in [SETTINGS, length] {
                comparer.progressive_read(&made, &vec![BEFORE as i32; lent]);
                comparer.progressive_read(&image, &vec![BEFORE as i32; lent]);
            }
        }
    }
}

/// Many addresses, for each place of one.
fn addresses(comparer: &mut Comparer, random: &mut Random) {
    let (image, settings, _) = sound(random);
    let plan = cases::packed(&image, &settings);
    for address in every_address() {
        comparer.progressive_plan(&image, &settings, address, &[BEFORE; ROOM]);
        for bytes in [&plan[..], &[0x00], &[0x01], &[]] {
            comparer.progressive_play(&image, address, ADDRESS, bytes);
            comparer.progressive_play(&image, ADDRESS, address, bytes);
            comparer.progressive_play(&image, address, address, bytes);
        }
    }
}

/// One plan: every room, every cut, extended, and every bit flipped.
fn plans(comparer: &mut Comparer, random: &mut Random) {
    let settings = cases::accepted(random);
    let image = cases::near_image(random, &settings, FLIPPED);
    let plan = cases::packed(&image, &settings);
    for room in 0..=plan.len() + 3 {
        let room = &[BEFORE; ROOM][..room];
        comparer.progressive_plan(&image, &settings, ADDRESS, room);
    }
    for length in 0..=plan.len() + 3 {
        for more in [0x00, 0x01, 0xFF] {
            let resized = resized(&plan, length, more);
            comparer.progressive_play(&image, ADDRESS, ADDRESS, &resized);
            sending::every(comparer, TRANSACTION, &resized);
        }
    }
    for place in 0..8 * plan.len() {
        let mut flipped = plan.clone();
        flipped[place / 8] ^= 0x80 >> (place % 8);
        comparer.progressive_play(&image, ADDRESS, ADDRESS, &flipped);
        sending::every(comparer, TRANSACTION, &flipped);
    }
}

/// Every plan of one or two bytes, and one transaction of each count at each subaddress.
fn short_plans(comparer: &mut Comparer, random: &mut Random) {
    let image = cases::any_image(random);
    for word in 0..=u16::MAX {
        comparer.progressive_play(&image, ADDRESS, ADDRESS, &word.to_be_bytes());
    }
    for byte in 0..=u8::MAX {
        comparer.progressive_play(&image, ADDRESS, ADDRESS, &[byte]);
        comparer.progressive_play(&image, ADDRESS, ADDRESS + 2, &[byte]);
        sending::every(comparer, TRANSACTION, &[byte]);
    }
    for start in 0..LONGEST {
        for count in 0..LONGEST {
            // Whatever it writes to 03, interpolation stays.
            let mut data: Vec<u8> = (0..count).map(|_| random.byte()).collect();
            if let Some(three) = MODE_3.checked_sub(start).and_then(|at| data.get_mut(at)) {
                *three = image[MODE_3];
            }
            let plan = lists::packed(&[(start as u32, data)]);
            comparer.progressive_play(&image, ADDRESS, ADDRESS, &plan);
            comparer.progressive_play(&image, ADDRESS + 2, ADDRESS, &plan);
        }
    }
}

/// Every list of some transactions around 03 and 09, at the chip's address and at another.
fn orders(comparer: &mut Comparer) {
    for (three, nine) in HELD {
        let mut image = [0; REGISTERS];
        image[MODE_3] = three;
        image[MODE_6] = nine;
        for count in 0..=MOST_SENT {
            for number in 0..SENT.len().pow(count) {
                let places = (0..count).map(|place| number / SENT.len().pow(place) % SENT.len());
                let list: List = places.map(|at| (SENT[at].0, SENT[at].1.to_vec())).collect();
                let plan = lists::packed(&list);
                comparer.progressive_play(&image, ADDRESS, ADDRESS, &plan);
                comparer.progressive_play(&image, ADDRESS + 2, ADDRESS, &plan);
            }
        }
    }
}

/// Every number of the settings, from below all ranges to above nearly all; the CGMS data at each power of two.
fn numbers(comparer: &mut Comparer, random: &mut Random) {
    let (image, settings, _) = sound(random);
    let mut tried = |place: usize, value: i32| {
        let mut changed = settings;
        changed[place] = value;
        comparer.progressive_plan(&image, &changed, ADDRESS, &[BEFORE; ROOM]);
    };
    for place in 0..SETTINGS {
        TRIED.chain(WIDE).for_each(|value| tried(place, value));
    }
    for number in 1..=FIELDS {
        let bits = TABLE[number - 1].place.bits;
        if TABLE[number - 1].settings() == 1 {
            let powers = (0..=bits).map(|place| 1 << place);
            let around = powers.flat_map(|power: i32| [power - 1, power, power + 1]);
            around.for_each(|value| tried(first_setting(number), value));
        }
    }
}

/// Every byte of every register: read, and planned over.
fn registers(comparer: &mut Comparer, random: &mut Random) {
    let (_, settings, settled) = sound(random);
    for register in 0..REGISTERS {
        for byte in 0..=u8::MAX {
            let mut image = settled;
            image[register] = byte;
            comparer.progressive_read(&image, &[BEFORE as i32; SETTINGS]);
            comparer.progressive_plan(&image, &settings, ADDRESS, &[BEFORE; ROOM]);
        }
    }
}
