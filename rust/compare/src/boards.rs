//! Boards known in part: every register unknown, every two of them, and every
//! set of those that settings can fix in part.

use crate::captions::{three, with_captions, EXTENDED, ORDINARY};
use crate::cases::{self, Image, Numbers, ADDRESS, BEFORE, ROOM};
use crate::comparer::Comparer;
use crate::flags::{PARTS, PAST};
use crate::limits;
use crate::random::Random;
use plain::fields::{self as at, SETTINGS};
use plain::registers::{self as reg, CAPTION_BYTES, REGISTERS};
use plain::{ALL_KNOWN, NO_LIMIT};

/// Kinds of signalling.
const KINDS: [i32; 3] = [at::OFF, at::CGMS, at::WSS];
/// Rooms tried with each set of registers that are fixed in part.
const ROOMS: [usize; 3] = [0, 1, ROOM];
/// Bytes that an unknown register holds.
const HELD: [u8; 4] = [0x00, 0x7F, 0x80, 0xFF];

/// Everything systematic.
pub fn all(comparer: &mut Comparer, random: &mut Random) {
    for kind in KINDS {
        let settings = of_kind(random, kind);
        let image = cases::settled(&cases::any_image(random), &settings);
        every_two(comparer, random, &image, &settings);
        in_part(comparer, random, &settings);
        held(comparer, &image, &settings);
        plays(comparer, random, &image);
    }
    captions(comparer, random);
}

/// Accepted settings with a kind of signalling.
pub(crate) fn of_kind(random: &mut Random, kind: i32) -> Numbers {
    let mut settings = cases::accepted(random);
    while settings[at::SIGNALLING] != kind {
        settings = cases::accepted(random);
    }
    settings
}

/// No, every and every two registers unknown, with and without flags past the last, on a board
/// that has what is wanted and on one whose every register is wrong.
fn every_two(comparer: &mut Comparer, random: &mut Random, image: &Image, settings: &Numbers) {
    let wrong = image.map(|byte| !byte);
    for first in 0..REGISTERS {
        for second in first..REGISTERS {
            let unknown = 1 << first | 1 << second;
            let limit = limits::right(random);
            for past in [0, PAST] {
                for known in [ALL_KNOWN & !unknown | past, unknown | past] {
                    comparer.plan(image, known, settings, ADDRESS, limit, &[BEFORE; ROOM]);
                    comparer.plan(&wrong, known, settings, ADDRESS, limit, &[BEFORE; ROOM]);
                    comparer.read(image, known, &[BEFORE as i32; SETTINGS]);
                }
            }
        }
    }
}

/// Every set of the registers that settings can fix in part, with rooms, a wrong address, a fault
/// in the settings and a wrong length of the image.
fn in_part(comparer: &mut Comparer, random: &mut Random, settings: &Numbers) {
    let mut spoilt = *settings;
    spoilt[at::CURVE_B] = 2;
    let mut set = PARTS;
    loop {
        let image = cases::near_image(random, settings, 2);
        let known = ALL_KNOWN & !set;
        let limit = limits::any(random);
        for room in ROOMS {
            let room = &[BEFORE; ROOM][..room];
            comparer.plan(&image, known, settings, ADDRESS, limit, room);
            comparer.plan(&image, known, &spoilt, ADDRESS, limit, room);
            comparer.plan(&image, known, settings, ADDRESS + 1, limit, room);
            comparer.plan(&image[1..], known, settings, ADDRESS, limit, room);
            comparer.plan(&image, known, &settings[1..], ADDRESS, limit, room);
        }
        if set == 0 {
            break;
        }
        set = (set - 1) & PARTS;
    }
}

/// Each register unknown with some bytes in it: read, and planned.
fn held(comparer: &mut Comparer, image: &Image, settings: &Numbers) {
    for register in 0..REGISTERS {
        for byte in HELD {
            let mut image = *image;
            image[register] = byte;
            let known = ALL_KNOWN & !(1 << register);
            comparer.plan(&image, known, settings, ADDRESS, NO_LIMIT, &[BEFORE; ROOM]);
            comparer.read(&image, known, &[BEFORE as i32; SETTINGS]);
            comparer.read(&image[1..], known, &[BEFORE as i32; SETTINGS]);
            comparer.read(&image, known, &[BEFORE as i32; SETTINGS - 1]);
            // A fault in a later field, and in an earlier one.
            for faulty in [reg::MODE_0, reg::SIGNAL_TOP, reg::DNR_MODES, reg::WORD] {
                let mut image = image;
                image[faulty] = !image[faulty];
                comparer.read(&image, known, &[BEFORE as i32; SETTINGS]);
            }
        }
    }
}

/// Plans played with each flag alone, and with all but it.
fn plays(comparer: &mut Comparer, random: &mut Random, image: &Image) {
    let settings = cases::accepted(random);
    let (planned, bytes) = cases::packed(image, ALL_KNOWN, &settings, limits::right(random));
    let plan = &bytes[..planned.length as usize];
    for place in 0..u64::BITS {
        for known in [1 << place, !(1 << place)] {
            for used in [ADDRESS, ADDRESS + 1, ADDRESS + 2] {
                comparer.play(image, known, used, ADDRESS, plan);
                comparer.play(image, known, used, ADDRESS, &[0x00]);
                comparer.play(image, known, used, ADDRESS, &plan[..plan.len() - 1]);
            }
        }
    }
}

/// Captions: every set of their registers known, read and played.
fn captions(comparer: &mut Comparer, random: &mut Random) {
    let (odd, plans) = (with_captions(random), three(random));
    let mut even = odd;
    even[reg::CAPTIONS..][..CAPTION_BYTES].fill(0x00);
    for set in 0..1 << CAPTION_BYTES {
        for beside in [0, PAST, !reg::span(reg::CAPTIONS, CAPTION_BYTES)] {
            let known = set << reg::CAPTIONS | beside;
            for pair in [EXTENDED, ORDINARY, 2] {
                comparer.read_captions(&odd, known, pair);
                comparer.read_captions(&even, known, pair);
                comparer.read_captions(&odd[1..], known, pair);
            }
            for plan in &plans {
                comparer.play_both(&odd, known, ADDRESS, ADDRESS, plan);
                comparer.play_both(&odd, known, ADDRESS + 2, ADDRESS, plan);
            }
        }
    }
}
