//! Records of planning for the ADV7195.

use super::{flipped, settings_of, with, Numbers, ZEROS};
use super::{COLOUR_CB, COLOUR_CR, COLOUR_Y, DAC_C, INTERPOLATION, MODE_REGISTER_6};
use crate::known::known;
use crate::limits::{comment, limit};
use crate::make::record;
use crate::plans::{ADDRESS, BEFORE};
use crate::{decimal, hex};
use plain::progressive::published::{hatch, holding, power_up, COLOURS};
use plain::progressive::registers::{self as reg, INTERPOLATION_BIT, REGISTERS};
use plain::progressive::Image;

/// Room for any packed plan, and for those of a few registers.
pub(super) const MOST_ROOM: usize = 43;
pub(super) const ROOM: usize = 16;
/// Interpolation turned on.
const ON: (usize, i32) = (INTERPOLATION, 1);
/// 3E wanted in 09, and 00.
const STAYS: (usize, i32) = (MODE_REGISTER_6, 0x3E);
const GOES: (usize, i32) = (MODE_REGISTER_6, 0x00);
/// Bytes that 09 holds and is to hold.
const NINES: [(u8, i32); 5] = [
    (0x3E, 0x3E),
    (0x00, 0x3E),
    (0xA5, 0xA5),
    (0x3E, 0x00),
    (0x00, 0xA5),
];
/// Registers between 03 and 09, and below 03, of which every set is tried.
const BETWEEN: [usize; 5] = [0x04, 0x05, 0x06, 0x07, 0x08];
const BELOW: [usize; 3] = [0x00, 0x01, 0x02];
/// Registers above the reserved ones that are wrong in many ways.
const ABOVE: [usize; 6] = [0x10, 0x11, 0x13, 0x16, 0x1A, 0x27];
/// Lines that are no records: no number, a word in place of one, lists that aren't bytes, other words.
const NO_RECORDS: [&str; 9] = [
    "plan7195",
    "plan7195:00",
    "plan7195 84h",
    "plan7195 84:0",
    "plan7195 84;S",
    "Plan7195 84",
    "plan719 84",
    "plan71955 84",
    "plan7194 84",
];

/// A record of planning.
pub(super) fn plan(image: &[u8], settings: &[i32], address: i64, room: usize) -> String {
    let head = format!("plan7195 {address} {}", decimal(settings));
    let lent = hex(&vec![BEFORE; room]);
    record(head.trim_end().to_string(), image, &lent)
}

/// Planning at the boards' address.
pub(super) fn planned(image: &Image, settings: &[i32], room: usize) -> String {
    plan(image, settings, ADDRESS.into(), room)
}

/// Planning: what is published, worked plans, orders of transactions, rooms, addresses and lengths.
pub fn plans() -> Vec<String> {
    let mut lines = published();
    lines.extend(worked());
    lines.extend(sets());
    lines.extend(largest());
    lines.extend(kept());
    lines.extend(rooms_and_addresses());
    lines.extend(lengths());
    lines.extend(others());
    lines
}

/// The tables of the data sheet, over each other, zeros and ones.
fn published() -> Vec<String> {
    let mut lines = vec![comment(
        "Table XI and Table XII: over each other, over zeros and over ones.",
    )];
    let tables = [power_up(), hatch()];
    for wanted in tables {
        let settings = settings_of(&wanted);
        for found in tables.iter().chain(&[[0x00; REGISTERS], [0xFF; REGISTERS]]) {
            lines.push(planned(found, &settings, MOST_ROOM));
        }
    }
    lines.push(comment("The colours of Table IV."));
    for colour in COLOURS {
        let fields = [COLOUR_Y, COLOUR_CR, COLOUR_CB].into_iter();
        let changed: Vec<(usize, i32)> = fields.zip(colour.map(i32::from)).collect();
        let settings = with(settings_of(&power_up()), &changed);
        lines.push(planned(&power_up(), &settings, ROOM));
    }
    lines
}

/// What is changed on a board after power-up: 09 before it, the settings, and what it shows.
type Change = (&'static str, u8, &'static [(usize, i32)]);
/// Plans that are worked out by hand.
const WORKED: [Change; 12] = [
    ("3E isn't in 09, and is wanted.", 0x00, &[ON, STAYS]),
    ("3E is in 09, and is written all the same.", 0x3E, &[ON]),
    ("09 is 00 before and after.", 0x00, &[ON]),
    ("09 goes from 3E to 00.", 0x3E, &[ON, GOES]),
    (
        "07 and 08 go with the first transaction.",
        0x00,
        &[ON, (COLOUR_CR, 0xF0), (COLOUR_CB, 0x5A)],
    ),
    (
        "06 goes with it: of two lists that cost the same the one with the lower start.",
        0x00,
        &[ON, STAYS, (COLOUR_Y, 0x51)],
    ),
    (
        "06 goes with 03: of two lists that cost the same the one with two transactions.",
        0x00,
        &[ON, (COLOUR_Y, 0x51)],
    ),
    ("No 3E where MR36 stays as it is.", 0x00, &[(DAC_C, 0)]),
    ("The same where 09 holds it.", 0x3E, &[(DAC_C, 0)]),
    ("The same where it is wanted.", 0x00, &[(DAC_C, 0), STAYS]),
    ("A DAC off with it.", 0x3E, &[ON, (DAC_C, 0)]),
    ("3E goes, and nothing else.", 0x3E, &[GOES]),
];

/// Worked plans.
fn worked() -> Vec<String> {
    let mut lines = Vec::new();
    for (name, nine, changed) in WORKED {
        let image = holding(power_up(), &[(reg::MODE_6, nine)]);
        lines.push(comment(name));
        lines.push(planned(&image, &with(settings_of(&image), changed), ROOM));
    }
    lines.push(comment("Interpolation turned off again."));
    let image = holding(power_up(), &[(reg::MODE_3, 0x78)]);
    for changed in [&[(INTERPOLATION, 0)][..], &[(INTERPOLATION, 0), STAYS]] {
        lines.push(planned(&image, &with(settings_of(&image), changed), ROOM));
    }
    lines
}

/// A board that is right but for these registers.
fn wrong(right: Image, registers: &[usize], set: usize) -> Image {
    let places = (0..registers.len()).filter(|place| set >> place & 1 == 1);
    let flips: Vec<(usize, u8)> = places.map(|place| (registers[place], 0x01)).collect();
    flipped(right, &flips)
}

/// A board with a byte in 09 and interpolation the other way, and the settings that are wanted.
fn other_way((held, nine): (u8, i32)) -> (Image, Numbers) {
    let settings = with(settings_of(&power_up()), &[(MODE_REGISTER_6, nine)]);
    let image = flipped(power_up(), &[(reg::MODE_3, INTERPOLATION_BIT)]);
    (holding(image, &[(reg::MODE_6, held)]), settings)
}

/// Sets of registers that are wrong where interpolation changes, with each kind of byte in 09.
fn sets() -> Vec<String> {
    let name = "Interpolation changes, and every set of 04 to 08 is wrong, then every one of 00 to 02; 09 is";
    let held = "found and wanted 3E, wanted 3E, another byte all along, found 3E, another byte and then a third.";
    let mut lines = vec![comment(name), comment(held)];
    for nines in NINES {
        let (image, settings) = other_way(nines);
        for set in 0..1 << BETWEEN.len() {
            lines.push(planned(&wrong(image, &BETWEEN, set), &settings, ROOM));
        }
        for set in 1..1 << BELOW.len() {
            lines.push(planned(&wrong(image, &BELOW, set), &settings, ROOM));
        }
    }
    lines.push(comment(
        "Registers above the reserved ones too: they come last.",
    ));
    for nines in [NINES[0], NINES[2]] {
        let (image, settings) = other_way(nines);
        for set in 1..1 << ABOVE.len() {
            lines.push(planned(&wrong(image, &ABOVE, set), &settings, MOST_ROOM));
        }
    }
    lines
}

/// The largest plan, 322 bits: 09, then all of 00 to 09, then all of 10 to 27.
fn largest() -> Vec<String> {
    let settings = settings_of(&power_up());
    let mut lines = vec![comment(
        "The largest plan: 41 bytes, and 40 are not enough.",
    )];
    let rooms = [0, 39, 40, 41, 42, 64];
    lines.extend(rooms.map(|room| planned(&[0xFF; REGISTERS], &settings, room)));
    lines.push(comment("A byte less to send: 40 bytes are enough."));
    let image = holding([0xFF; REGISTERS], &[(reg::THRESHOLD_C, 0x64)]);
    lines.extend([39, 40].map(|room| planned(&image, &settings, room)));
    lines
}

/// Bits that must be zero are written so, bits outside all fields stay.
fn kept() -> Vec<String> {
    let settings = settings_of(&power_up());
    let mut lines = Vec::new();
    for (name, register, bit) in ZEROS {
        lines.push(comment(&format!("{name} set in the image.")));
        lines.push(planned(
            &flipped(power_up(), &[(register, bit)]),
            &settings,
            ROOM,
        ));
    }
    lines.push(comment(
        "Bits outside all fields: 04's upper seven, 13's upper four, 0A to 0F.",
    ));
    let reserved = (reg::RESERVED..reg::FILTER_GAIN).map(|register| (register, 0xFF));
    let others: Vec<(usize, u8)> = reserved.chain([(0x04, 0xFE), (0x13, 0xF0)]).collect();
    lines.push(planned(&flipped(power_up(), &others), &settings, ROOM));
    lines.push(comment("The same beside bits of fields."));
    let image = flipped(power_up(), &[(0x04, 0xFF), (0x13, 0xF1), (0x0A, 0x01)]);
    lines.push(planned(&image, &settings, ROOM));
    lines
}

/// Lent plans on both sides of the packed plan's length; addresses.
fn rooms_and_addresses() -> Vec<String> {
    let settings = settings_of(&hatch());
    let mut lines = vec![comment(
        "Table XII over Table XI, and nothing to do, in many rooms.",
    )];
    lines.extend((0..=7).map(|room| planned(&power_up(), &settings, room)));
    lines.extend((0..=2).map(|room| planned(&hatch(), &settings, room)));
    lines.push(comment("Addresses."));
    let wide = [(1 << 31) + 84, 4_294_967_294, (1 << 32) + 84];
    let addresses = [0, 1, 84, 85, 254, 255, 256, 340, -2]
        .into_iter()
        .chain(wide);
    lines.extend(addresses.map(|address| plan(&power_up(), &settings, address, 6)));
    lines
}

/// Images that aren't 40 bytes, settings that aren't 58 numbers, and what is refused first.
fn lengths() -> Vec<String> {
    let settings = settings_of(&hatch());
    let long = [power_up().to_vec(), vec![0x00; 24]].concat();
    let mut lines = vec![comment(
        "Images that aren't 40 bytes: alone, with an odd address, and with too few settings.",
    )];
    for length in [0, 1, 39, 41, 54, 64] {
        lines.push(plan(&long[..length], &settings, 84, 6));
        lines.push(plan(&long[..length], &settings, 85, 6));
        lines.push(plan(&long[..length], &settings[1..], 84, 0));
    }
    lines.push(comment(
        "Settings that aren't 58 numbers: alone, with an odd address, and with no room.",
    ));
    let many = [&settings[..], &[0, 0]].concat();
    for count in [0, 1, 49, 57, 59, 60] {
        lines.push(plan(&power_up(), &many[..count], 84, 6));
        lines.push(plan(&power_up(), &many[..count], 85, 6));
        lines.push(plan(&power_up(), &many[..count], 84, 0));
    }
    lines
}

/// Flags and limits aren't for this chip; lines that are no records.
fn others() -> Vec<String> {
    let settings = settings_of(&power_up());
    let all = planned(&[0xFF; REGISTERS], &settings, MOST_ROOM);
    let mut lines = vec![comment(
        "No register known, and a limit of 4: neither is for this chip.",
    )];
    lines.extend([known(0), all.clone(), limit(4), all.clone(), limit(3), all]);
    lines.push(comment("Lines that are no records."));
    lines.extend(NO_RECORDS.map(str::to_string));
    lines.push(comment(
        "No settings, no image and no lent bytes make a record.",
    ));
    lines.push("plan7195 84".to_string());
    lines
}
