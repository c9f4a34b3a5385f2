//! Reading boards known in part, their captions, and the chip's flags at events,
//! against the papers' words; the packed plans are written by hand.

#[path = "common/boards.rs"]
mod boards;
#[path = "common/lowest.rs"]
mod lowest;

use boards::{settled, three, with, OWN, PAST};
use lowest::lowest_field;
use plain::chip::{Chip, Event};
use plain::fields::{self as at, SETTINGS};
use plain::registers::REGISTERS;
use plain::{house, play_captions, read, read_captions, ALL_KNOWN};

/// The ordinary pair HI, as tests/captions.rs writes it out.
const HI: [u8; 5] = [0x05, 0x30, 0xB2, 0x12, 0x40];
/// Two nulls in the extended pair, and HI.
const BOTH: [u8; 8] = [0x09, 0x10, 0xA0, 0x20, 0x13, 0x0B, 0x21, 0x24];

/// Each register unknown, in reading a sound image, one with a fault in that
/// register, and one with a fault in the first field of all.
#[test]
fn reading() {
    for s in three(house()) {
        let image = settled(&s, 0);
        let of = |image: &[u8], known: u64| {
            let mut numbers = [7; SETTINGS];
            let answer = read(image, known, &mut numbers);
            assert!(answer.refusal == 0 || numbers == [7; SETTINGS]);
            (answer.refusal, answer.field)
        };
        for register in 0..REGISTERS {
            let known = ALL_KNOWN & !(1 << register);
            let field = lowest_field(register);
            let expected = if field == 0 { (0, 0) } else { (11, field) };
            assert_eq!(of(&image, known), expected, "{register:02X}");
            assert_eq!(of(&image, known | PAST), expected);
            for byte in [0x00, 0x7F, 0xFF] {
                let mut faulty = image;
                faulty[register] = byte;
                assert_eq!(of(&faulty, known), expected, "{register:02X}");
            }
            let mut reserved = image;
            reserved[0x00] = 0x03;
            let first = if register == 0 { (11, 1) } else { (4, 1) };
            assert_eq!(of(&reserved, known), first);
        }
        assert_eq!(of(&image, 0), (11, 1));
        assert_eq!(of(&image, PAST), (11, 1));
        assert_eq!(of(&image[1..], 0), (1, 0));
        assert_eq!(read(&image, 0, &mut [0; SETTINGS - 1]).refusal, 3);
    }
}

/// 11 at a field, and a fault of the field before it and after it.
#[test]
fn reading_between_faults() {
    let image = settled(&with(house(), &[(at::PEDESTAL, 1)]), 0);
    let of = |register: usize, byte: u8, unknown: u32| {
        let mut image = image;
        image[register] = byte;
        let answer = read(&image, ALL_KNOWN & !(1 << unknown), &mut [0; SETTINGS]);
        (answer.refusal, answer.field)
    };
    // 02 has field 2: before square pixel with 4x at 3, and pedestal with PAL at 4.
    assert_eq!(of(0x02, 0x18, 0x02), (11, 2));
    assert_eq!(of(0x02, 0x18, 0x01), (11, 3));
    assert_eq!(of(0x02, 0x18, 0x05), (5, 3));
    assert_eq!(of(0x00, 0x01, 0x02), (11, 2));
    assert_eq!(of(0x00, 0x01, 0x05), (6, 4));
    // 05 has field 5, before a fault in 6 and 8.
    assert_eq!(of(0x05, 0x46, 0x05), (11, 5));
    assert_eq!(of(0x05, 0x06, 0x10), (4, 6));
    // Off or not, all three registers of 11 are asked for.
    assert_eq!(of(0x19, 0x00, 0x1B), (11, 11));
    assert_eq!(of(0x19, 0x80, 0x1A), (11, 11));
    assert_eq!(of(0x1D, 0xC1, 0x1E), (3, 12));
    assert_eq!(of(0x21, 0x9F, 0x20), (11, 15));
    assert_eq!(of(0x0C, 0x00, 0x0F), (11, 28));
    assert_eq!(of(0x0C, 0x00, 0x33), (11, 27));
}

#[test]
fn captions() {
    let mut image = [0x80; REGISTERS];
    let of = |image: &[u8], known: u64, pair: u32| {
        let answer = read_captions(image, known, pair);
        assert!(answer.refusal == 0 || [answer.first, answer.second] == [0; 2]);
        (answer.refusal, answer.field)
    };
    for (pair, registers) in [(0, [0x11, 0x12]), (1, [0x13, 0x14])] {
        for register in 0..REGISTERS {
            let mine = registers.contains(&register);
            let expected = if mine { (11, 29) } else { (0, 0) };
            assert_eq!(of(&image, ALL_KNOWN & !(1 << register), pair), expected);
        }
        let pair_alone = PAST | 1 << registers[0] | 1 << registers[1];
        assert_eq!(of(&image, pair_alone, pair), (0, 0));
    }
    // 1, then 3, then 11, then 4.
    image[0x11..=0x14].fill(0x00);
    assert_eq!(of(&image[1..], 0, 2), (1, 0));
    assert_eq!(of(&image, 0, 2), (3, 29));
    assert_eq!(of(&image, 0, 1), (11, 29));
    assert_eq!(of(&image, ALL_KNOWN, 1), (4, 29));
    // Sent, they are known; refused or at another address, nothing is.
    for known in [0, PAST, ALL_KNOWN, 1 << 0x13] {
        let sent = |used: u32, plan: &[u8]| {
            play_captions(&mut image.clone(), known, used, OWN, plan).known
        };
        assert_eq!(sent(OWN, &HI), known | 0b11 << 0x13);
        assert_eq!(sent(OWN, &BOTH), known | 0b1111 << 0x11);
        assert_eq!(sent(OWN + 2, &BOTH), known);
        assert_eq!(sent(OWN + 1, &BOTH), known);
        assert_eq!(sent(OWN, &[0x00]), known);
    }
}

/// A stored byte alone makes its register known.
#[test]
fn chip() {
    let mut chip = Chip::fresh(OWN as u8, [0; REGISTERS], PAST);
    let mut known_by = |event: Event| {
        let before = chip.known;
        chip.step(event);
        chip.known ^ before
    };
    let byte = Event::FromMaster;
    let acknowledged = true;
    for (event, stored) in [
        (byte(0x54), 0),
        (Event::Start, 0),
        (byte(0x54), 0),
        (byte(0x33), 0),
        (byte(0xA1), 1 << 0x33),
        (byte(0xA2), 0), // dropped
        (byte(0xA3), 1 << 0x35),
        (byte(0xA4), 0), // past the last
        (Event::Start, 0),
        (byte(0x55), 0),
        (Event::ToMaster { acknowledged }, 0),
        (byte(0x00), 0),
        (Event::Start, 0),
        (byte(0x54), 0),
        (byte(0x33), 0),
        (byte(0xB1), 0), // known already
        (Event::Stop, 0),
        (byte(0xB2), 0),
    ] {
        assert_eq!(known_by(event), stored, "{event:?}");
    }
    assert_eq!(chip.known, PAST | 1 << 0x33 | 1 << 0x35);
    assert_eq!(chip.registers[0x34], 0);
}
