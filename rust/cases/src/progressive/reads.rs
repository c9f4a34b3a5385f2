//! Records of reading the ADV7195.

use super::{flipped, settings_of, ZEROS};
use crate::known::known;
use crate::limits::comment;
use crate::make::record;
use plain::progressive::fields::{Kind, TABLE};
use plain::progressive::published::{hatch, holding, power_up, COLOURS};
use plain::progressive::registers::{self as reg, REGISTERS};

/// A curve for gamma 0.5.
pub(super) const CURVE: [u8; 7] = [0x4C, 0x78, 0x96, 0xAE, 0xC4, 0xD7, 0xE8];
/// The bits of 00 and of 02 whose every code is read.
const STANDARDS: u8 = 0xAF;
const DELAYS: u8 = 0x3F;
/// Lines that are no records: a number, a second list, lists that aren't bytes, other words.
const NO_RECORDS: [&str; 8] = [
    "read7195 1",
    "read7195 1:00",
    "read7195:00;00",
    "read7195;00",
    "read7195:0",
    "read719:00",
    "read71955:00",
    "read7194:00",
];

/// A record of reading.
fn read(image: &[u8]) -> String {
    record("read7195".to_string(), image, "")
}

/// Reading: what is published, every field, every code that can be refused, lengths.
pub fn reads() -> Vec<String> {
    let mut lines = published();
    lines.extend(fields());
    lines.extend(codes());
    lines.extend(lengths());
    lines
}

/// What the data sheet publishes.
fn published() -> Vec<String> {
    let mut lines = vec![comment(
        "Table XI, Table XII, and the HDTV mode of Table XIII.",
    )];
    let hdtv = holding(power_up(), &[(reg::MODE_1, 0x0D), (reg::MODE_3, 0x39)]);
    lines.extend([power_up(), hatch(), hdtv].map(|image| read(&image)));
    lines.push(comment("The colours of Table IV."));
    for colour in COLOURS {
        let registers = (reg::COLOUR_Y..).zip(colour);
        lines.push(read(&holding(power_up(), &registers.collect::<Vec<_>>())));
    }
    lines.push(comment("Gamma 0.5 in each curve, and 99 in Filter Gain."));
    for first in [reg::CURVE_A, reg::CURVE_B] {
        let registers = (first..).zip(CURVE);
        lines.push(read(&holding(power_up(), &registers.collect::<Vec<_>>())));
    }
    lines.push(read(&holding(power_up(), &[(reg::FILTER_GAIN, 0x99)])));
    lines
}

/// Every field's highest setting alone, and bits of none.
fn fields() -> Vec<String> {
    let mut lines = vec![comment(
        "Each field alone at its highest setting, over zeros.",
    )];
    for field in TABLE.iter().filter(|field| field.kind != Kind::MustBeZero) {
        for place in field.places() {
            let highest = match field.kind {
                Kind::Delay => 4,
                Kind::LastReserved => 2,
                _ => (1 << place.bits) - 1,
            };
            let mut image = [0; REGISTERS];
            place.put(&mut image, highest);
            settings_of(&image);
            lines.push(read(&image));
        }
    }
    lines.push(comment(
        "Bits outside all fields: 04's upper seven, 13's upper four, 0A to 0F.",
    ));
    let reserved = (reg::RESERVED..reg::FILTER_GAIN).map(|register| (register, 0xFF));
    let others: Vec<(usize, u8)> = reserved.chain([(0x04, 0xFE), (0x13, 0xF0)]).collect();
    lines.push(read(&holding(power_up(), &others)));
    lines.push(comment("Zeros, ones, each register its number."));
    let numbered: [u8; REGISTERS] = std::array::from_fn(|register| register as u8);
    lines.extend([[0x00; REGISTERS], [0xFF; REGISTERS], numbered].map(|image| read(&image)));
    lines
}

/// Codes that are refused.
fn codes() -> Vec<String> {
    let mut lines = vec![comment("Output standard, input control, MR05 and MR07.")];
    let of = |register: usize, byte: u8| read(&holding(power_up(), &[(register, byte)]));
    let parts = |bits: u8| (0..=0xFF).filter(move |byte| byte & !bits == 0);
    lines.extend(parts(STANDARDS).map(|byte| of(reg::MODE_0, byte)));
    lines.push(comment("Y delay and colour delay."));
    lines.extend(parts(DELAYS).map(|byte| of(reg::MODE_2, byte)));
    for (name, register, bit) in ZEROS {
        lines.push(comment(&format!("{name}.")));
        lines.push(read(&flipped(power_up(), &[(register, bit)])));
    }
    lines.push(comment("Two faults at once: the first is given."));
    let faults = [
        (0x00, 0x03),
        (0x00, 0x0C),
        (0x00, 0x20),
        (0x00, 0x80),
        (0x02, 0x05),
        (0x02, 0x28),
        (0x03, 0x02),
        (0x03, 0x04),
        (0x03, 0x80),
        (0x05, 0x01),
    ];
    for (place, fault) in faults.iter().enumerate() {
        for other in &faults[place + 1..] {
            lines.push(read(&flipped(power_up(), &[*fault, *other])));
        }
    }
    lines
}

/// Other lengths, flags, and lines that are no records.
fn lengths() -> Vec<String> {
    let long = [power_up().to_vec(), vec![0x00; 24]].concat();
    let mut lines = vec![comment("Images that aren't 40 bytes.")];
    lines.extend([0, 1, 39, 41, 54, 64].map(|length| read(&long[..length])));
    lines.push(comment("The same with codes that are refused."));
    lines.extend([39, 41].map(|length| read(&vec![0xFF; length])));
    lines.push(comment("No register known: flags aren't for this chip."));
    lines.extend([known(0), read(&power_up())]);
    lines.push(comment("Lines that are no records."));
    lines.extend(NO_RECORDS.map(str::to_string));
    lines
}
