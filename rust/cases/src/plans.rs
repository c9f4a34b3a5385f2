//! Records of planning.

use crate::make::record;
use crate::{decimal, hex};
use plain::fields::{self as at, SETTINGS};
pub(crate) use plain::house;
use plain::registers::{self as reg, REGISTERS};
use plain::{ALL_KNOWN, NO_LIMIT};

/// The boards' address.
pub(crate) const ADDRESS: u32 = 0x54;
/// What a lent plan holds before planning.
pub(crate) const BEFORE: u8 = 0xEE;
/// A hue that is coded as 97, and one past its range.
const HUE: i32 = 40;
const HUE_PAST_RANGE: i32 = 225;
/// The ratios' numbers that are tried.
const RATIOS: std::ops::RangeInclusive<i32> = 0..=4;

/// The house setting as PAL with square pixels.
pub(crate) fn pal() -> [i32; SETTINGS] {
    let mut settings = house();
    settings[at::STANDARD] = at::PAL;
    settings[at::SQUARE] = 1;
    settings[at::FOUR_TIMES] = 0;
    settings[at::PEDESTAL] = 0;
    settings
}

/// Settings with some numbers changed.
pub(crate) fn with(mut settings: [i32; SETTINGS], changed: &[(usize, i32)]) -> [i32; SETTINGS] {
    for &(place, number) in changed {
        settings[place] = number;
    }
    settings
}

/// The image that settings ask for over one that holds the same byte everywhere.
pub(crate) fn wanted(settings: &[i32; SETTINGS], found: u8) -> [u8; REGISTERS] {
    settled([found; REGISTERS], settings)
}

/// The image that settings ask for over another.
pub(crate) fn settled(mut image: [u8; REGISTERS], settings: &[i32; SETTINGS]) -> [u8; REGISTERS] {
    let mut plan = [0; 64];
    let planned = plain::plan(&image, ALL_KNOWN, settings, ADDRESS, NO_LIMIT, &mut plan);
    plain::play(
        &mut image,
        ALL_KNOWN,
        ADDRESS,
        ADDRESS,
        &plan[..planned.length as usize],
    );
    image
}

/// A record of planning.
pub(crate) fn plan(image: &[u8], settings: &[i32], address: u32, room: usize) -> String {
    let head = format!("plan {address} {}", decimal(settings));
    record(
        head.trim_end().to_string(),
        image,
        &hex(&vec![BEFORE; room]),
    )
}

/// Planning on both sides of every room, address and length, the largest plan, wanted images over zeros and ones.
pub fn plans() -> Vec<String> {
    let house = house();
    let image = wanted(&house, 0x00);
    let hue = with(house, &[(at::HUE, HUE)]);
    let past = with(house, &[(at::HUE, HUE_PAST_RANGE)]);
    let mut lines = vec!["# Hue alone, and nothing to do, with lent plans on both sides of the packed plan's length.".to_string()];
    lines.extend((0..=5).map(|room| plan(&image, &hue, ADDRESS, room)));
    lines.extend((0..=2).map(|room| plan(&image, &house, ADDRESS, room)));
    lines.push("# Addresses.".to_string());
    let addresses = [0, 254, 85, 255, 256, 340, u32::MAX];
    lines.extend(addresses.map(|address| plan(&image, &hue, address, 4)));
    lines.push("# Images that aren't 54 bytes, the last with an odd address too.".to_string());
    let long = [0xFF; 55];
    for (length, address) in [(0, 84), (53, 84), (55, 84), (53, 85)] {
        lines.push(plan(&long[..length], &house, address, 4));
    }
    lines.push("# Settings that aren't 49 numbers.".to_string());
    for count in [0, 48] {
        lines.push(plan(&image, &house[..count], ADDRESS, 4));
    }
    lines.push(plan(&image, &[&house[..], &[0]].concat(), ADDRESS, 4));
    lines.push("# A setting that is refused, alone, with a wrong address, and with a lent plan that is too short.".to_string());
    for (address, room) in [(84, 4), (85, 4), (84, 0)] {
        lines.push(plan(&image, &past, address, room));
    }
    lines.extend(largest());
    lines.extend(over_zeros_and_ones());
    lines
}

/// The largest plan, 346 bits: every register that can be set is needed, or on the way.
fn largest() -> Vec<String> {
    let cgms = with(
        house(),
        &[
            (at::SIGNALLING, at::CGMS),
            (at::PAYLOAD, 0x1234),
            (at::ODD, 1),
            (at::EVEN, 1),
        ],
    );
    let rooms = [43, 44, 46].map(|room| plan(&[0xFF; REGISTERS], &cgms, ADDRESS, room));
    let name = "# The largest plan.".to_string();
    std::iter::once(name).chain(rooms).collect()
}

/// Settings of each standard over zeros and over ones.
fn over_zeros_and_ones() -> Vec<String> {
    let bytes = [
        (at::CURVE_A, at::BYTES),
        (at::CURVE_A + 9, 255),
        (at::CURVE_B, at::BYTES),
        (at::CURVE_B + 3, 16),
    ];
    let wss = [(at::SIGNALLING, at::WSS), (at::PAYLOAD, 4657)];
    let pal_4x = [(at::SQUARE, 0), (at::FOUR_TIMES, 1)];
    let all = [
        house(),
        with(pal(), &wss),
        with(with(pal(), &pal_4x), &bytes),
    ];
    let mut lines = vec!["# NTSC, PAL with square pixels and WSS, PAL with 4x and curves as bytes: over zeros and over ones.".to_string()];
    for settings in all {
        for found in [0x00, 0xFF] {
            lines.push(plan(&[found; REGISTERS], &settings, ADDRESS, 46));
        }
    }
    lines
}

/// Every ratio and one past each end, for each curve; every standard with and without square pixels where the word is zeros.
pub fn curves_and_words() -> Vec<String> {
    let image = wanted(&house(), 0x00);
    let mut lines = Vec::new();
    for kind in [at::CURVE_A, at::CURVE_B] {
        for p in RATIOS {
            for q in RATIOS {
                let ratio = [(kind + at::CURVE_P, p), (kind + at::CURVE_Q, q)];
                lines.push(plan(&image, &with(house(), &ratio), ADDRESS, 10));
            }
        }
    }
    for settings in [house(), pal()] {
        for square in [0, 1] {
            let pixels = [(at::SQUARE, square), (at::FOUR_TIMES, 1 - square)];
            let settings = with(settings, &pixels);
            let mut image = wanted(&settings, 0x00);
            image[reg::WORD..][..reg::WORD_BYTES].fill(0x00);
            lines.push(plan(&image, &settings, ADDRESS, 7));
        }
    }
    lines
}
