//! What the ADV7195's numbers stand for, and its refusals, against documents 001 and 02.

#[path = "common/progressive.rs"]
mod common;

use common::*;
use plain::progressive::fields::{first_setting, Kind, FIELDS, SETTINGS, TABLE};
use plain::progressive::published::{hatch, holding, power_up};
use plain::progressive::registers::REGISTERS;
use plain::progressive::{plan, read};

/// Bits of fields, and bits that must be zero, by register.
const BITS: [(usize, usize, u8, u8); 10] = [
    (0x00, 0x00, 0x5F, 0xA0),
    (0x01, 0x02, 0xFF, 0x00),
    (0x03, 0x03, 0x79, 0x86),
    (0x04, 0x04, 0x01, 0x00),
    (0x05, 0x05, 0xFE, 0x01),
    (0x06, 0x09, 0xFF, 0x00),
    (0x0A, 0x0F, 0x00, 0x00),
    (0x10, 0x12, 0xFF, 0x00),
    (0x13, 0x13, 0x0F, 0x00),
    (0x14, 0x27, 0xFF, 0x00),
];
/// Bits that must be zero: number, register, bit.
const ZEROS: [(u32, usize, u32); 6] = [
    (4, 0x00, 5),
    (6, 0x00, 7),
    (19, 0x03, 1),
    (20, 0x03, 2),
    (25, 0x03, 7),
    (27, 0x05, 0),
];

/// Refusal and field of planning.
fn refused(image: &[u8], settings: &[i32], address: u32, room: usize) -> (u32, u32) {
    let mut bytes = [0xEE; ROOM];
    let answer = plan(image, settings, address, &mut bytes[..room]);
    if answer.refusal != 0 {
        let numbers = (answer.length, answer.transactions, answer.bus_bytes);
        assert_eq!((numbers, bytes), ((0, 0, 0), [0xEE; ROOM]));
    }
    (answer.refusal, answer.field)
}

/// Refusal and field of reading.
fn read_refused(image: &[u8]) -> (u32, u32) {
    let mut settings = [77; SETTINGS];
    let answer = read(image, &mut settings);
    assert!(answer.refusal == 0 || settings == [77; SETTINGS]);
    (answer.refusal, answer.field)
}

#[test]
fn numbers_and_bits() {
    let mut bits = [[0u8; 2]; REGISTERS];
    let mut before = None;
    for field in TABLE {
        let at = Some((field.place.register, field.place.lowest));
        assert!(before < at, "{}", field.name);
        before = at;
        for place in field.places() {
            let mut image = [0; REGISTERS];
            place.put(&mut image, -1);
            assert_eq!(place.get(&image), (1 << place.bits) - 1);
            let zero = (field.kind == Kind::MustBeZero) as usize;
            for (held, new) in bits.iter_mut().zip(image) {
                assert_eq!((held[0] | held[1]) & new, 0, "{}", field.name);
                held[zero] |= new;
            }
        }
    }
    for (first, last, fields, zeros) in BITS {
        bits[first..=last]
            .iter()
            .for_each(|held| assert_eq!(*held, [fields, zeros]));
    }
    assert_eq!(first_setting(FIELDS) + 1, SETTINGS);
    for (number, register, bit) in ZEROS {
        let field = TABLE[number as usize - 1];
        assert_eq!(field.kind, Kind::MustBeZero);
        assert_eq!((field.place.register, field.place.lowest), (register, bit));
    }
}

#[test]
fn settings_out_of_range() {
    let image = power_up();
    for (number, field) in (1..).zip(TABLE) {
        for place in 0..field.settings() {
            let index = first_setting(number) + place;
            for (setting, expected) in judged(field.kind, field.place.bits) {
                let mut settings = settings_of(&image);
                settings[index] = setting;
                let expected = (expected, if expected == 0 { 0 } else { number as u32 });
                assert_eq!(
                    refused(&image, &settings, OWN, ROOM),
                    expected,
                    "{} {setting}",
                    field.name
                );
            }
        }
    }
}

/// Settings at the ends of a range, with their refusals.
fn judged(kind: Kind, bits: u32) -> Vec<(i32, u32)> {
    let last = (1 << bits) - 1;
    let mut all = vec![(-1, 3), (0, 0), (last + 1, 3), (i32::MIN, 3), (i32::MAX, 3)];
    match kind {
        Kind::LastReserved => all.extend([(2, 0), (3, 4)]),
        Kind::Delay => all.extend([(4, 0), (5, 3), (6, 3), (7, 3)]),
        _ => all.push((last, 0)),
    }
    all
}

#[test]
fn codes_of_images() {
    for byte in 0..=255u8 {
        // Output standard and input control, then the bits that must be zero.
        let expected = match byte {
            _ if byte & 0x03 == 0x03 => (4, 1),
            _ if byte & 0x0C == 0x0C => (4, 2),
            _ if byte & 0x20 != 0 => (4, 4),
            _ if byte & 0x80 != 0 => (4, 6),
            _ => (0, 0),
        };
        assert_eq!(
            read_refused(&holding(power_up(), &[(0x00, byte)])),
            expected
        );
        let expected = match byte {
            _ if byte & 0x07 > 4 => (3, 14),
            _ if byte >> 3 & 0x07 > 4 => (3, 15),
            _ => (0, 0),
        };
        assert_eq!(
            read_refused(&holding(power_up(), &[(0x02, byte)])),
            expected
        );
        let expected = match byte {
            _ if byte & 0x02 != 0 => (4, 19),
            _ if byte & 0x04 != 0 => (4, 20),
            _ if byte & 0x80 != 0 => (4, 25),
            _ => (0, 0),
        };
        assert_eq!(
            read_refused(&holding(power_up(), &[(0x03, byte)])),
            expected
        );
        let expected = (4 * u32::from(byte & 1), 27 * u32::from(byte & 1));
        assert_eq!(
            read_refused(&holding(power_up(), &[(0x05, byte)])),
            expected
        );
    }
    for register in (0..REGISTERS).filter(|register| ![0x00, 0x02, 0x03, 0x05].contains(register)) {
        assert_eq!(
            read_refused(&holding(power_up(), &[(register, 0xFF)])),
            (0, 0)
        );
    }
}

#[test]
fn order_of_the_checks() {
    let (image, settings) = (power_up(), settings_of(&hatch()));
    let both = with(settings, &[(Y_DELAY, 5), (COLOUR_DELAY, 5)]);
    let reserved = with(both, &[(OUTPUT_STANDARD, 3)]);
    assert_eq!(refused(&image[1..], &settings[1..], OWN + 1, 0), (1, 0));
    assert_eq!(
        refused(&[&image[..], &[0]].concat(), &settings, OWN, ROOM),
        (1, 0)
    );
    for address in [OWN + 1, 255, 256, u32::MAX] {
        assert_eq!(refused(&image, &settings[1..], address, 0), (2, 0));
    }
    assert_eq!(refused(&image, &reserved[..57], OWN, 0), (3, 0));
    assert_eq!(
        refused(&image, &[&reserved[..], &[0]].concat(), OWN, 0),
        (3, 0)
    );
    assert_eq!(refused(&image, &reserved, OWN, 0), (4, 1));
    assert_eq!(refused(&image, &both, OWN, 0), (3, 14));
    assert_eq!(refused(&image, &settings, OWN, 5), (10, 0));
    assert_eq!(refused(&image, &settings, OWN, 6), (0, 0));
    // Reading: the length, then the count lent, then the fields.
    let faults = holding(image, &[(0x00, 0xFF), (0x02, 0xFF)]);
    let lent = |image: &[u8], count: usize| {
        let answer = read(image, &mut vec![0; count]);
        (answer.refusal, answer.field)
    };
    assert_eq!(lent(&faults[1..], 57), (1, 0));
    assert_eq!(lent(&faults, 57), (3, 0));
    assert_eq!(lent(&faults, 59), (3, 0));
    assert_eq!(lent(&faults, 58), (4, 1));
}
