//! Captions against the papers' words; the packed plans are written by hand.

mod common;

use common::{packed, write};
use plain::chip::Chip;
use plain::fields::{self as at, SETTINGS};
use plain::registers::REGISTERS;
use plain::{
    caption_listing, plan, plan_captions, play, play_captions, read_captions, transaction,
};
use plain::{is_odd, with_parity, CaptionsAnswer, PlanAnswer, ALL_KNOWN, CAPTION_ROOM, NO_LIMIT};

/// The chip's own address.
const OWN: u32 = 0x54;
/// What a lent plan holds before.
const BEFORE: u8 = 0xAA;
/// The ordinary pair HI: 000001 010011 000010 11001000 01001001 000000.
const HI: [u8; 5] = [0x05, 0x30, 0xB2, 0x12, 0x40];
/// The extended pair of nulls: 000001 010001 000010 10000000 10000000 000000.
const NULLS: [u8; 5] = [0x05, 0x10, 0xA0, 0x20, 0x00];
/// Both: 000010 010001 000010 80 80 010011 000010 C8 49 00.
const BOTH: [u8; 8] = [0x09, 0x10, 0xA0, 0x20, 0x13, 0x0B, 0x21, 0x24];
/// The characters H and I.
const H_I: [i32; 2] = [0x48, 0x49];

/// Both pairs, the packed plan, and its transactions and bus bytes.
type Planned<'a> = (&'a [i32], &'a [i32], &'a [u8], [u32; 2]);

/// An image in which no register holds its number.
fn image() -> [u8; REGISTERS] {
    std::array::from_fn(|register| register as u8 ^ 0xA5)
}

/// The refusal and field of planning, with all the room there can be.
fn refused(extended: &[i32], ordinary: &[i32], address: u32) -> (u32, u32) {
    let mut lent = [BEFORE; CAPTION_ROOM];
    let answer = plan_captions(extended, ordinary, address, &mut lent);
    if answer.refusal != 0 {
        let (refusal, field) = (answer.refusal, answer.field);
        let zeros = PlanAnswer {
            refusal,
            field,
            ..PlanAnswer::default()
        };
        assert_eq!((answer, lent), (zeros, [BEFORE; CAPTION_ROOM]));
    }
    (answer.refusal, answer.field)
}

#[test]
fn parity() {
    for byte in 0..=0xFF {
        assert_eq!(
            is_odd(byte),
            format!("{byte:b}").matches('1').count() % 2 == 1
        );
    }
    for character in 0..0x80 {
        let byte = with_parity(character);
        assert!(is_odd(byte) && byte & 0x7F == character);
    }
    // The null, a space, H, I, delete.
    let bytes = [0x00, 0x20, 0x48, 0x49, 0x7F].map(with_parity);
    assert_eq!(bytes, [0x80, 0x20, 0xC8, 0x49, 0x7F]);
}

#[test]
fn planned() {
    let cases: [Planned; 3] = [
        (&[], &H_I, &HI, [1, 4]),
        (&[0, 0], &[], &NULLS, [1, 4]),
        (&[0, 0], &H_I, &BOTH, [2, 8]),
    ];
    for (extended, ordinary, plan, [transactions, bus_bytes]) in cases {
        let length = plan.len();
        let mut lent = [BEFORE; 10];
        let answer = plan_captions(extended, ordinary, OWN, &mut lent);
        let expected = PlanAnswer {
            refusal: 0,
            field: 0,
            length: length as u32,
            transactions,
            bus_bytes,
        };
        assert_eq!((answer, &lent[..length]), (expected, plan));
        assert!(lent[length..].iter().all(|&byte| byte == BEFORE));
        // With just the room, and with one byte less.
        let mut lent = [BEFORE; CAPTION_ROOM];
        let exact = plan_captions(extended, ordinary, OWN, &mut lent[..length]);
        assert_eq!((exact, &lent[..length]), (expected, plan));
        let mut lent = [BEFORE; CAPTION_ROOM];
        let short = plan_captions(extended, ordinary, OWN, &mut lent[..length - 1]);
        assert_eq!((short.refusal, short.length), (10, 0));
        assert_eq!(lent, [BEFORE; CAPTION_ROOM]);
    }
}

#[test]
fn planning_refused() {
    assert_eq!(refused(&[], &[0, 127], OWN), (0, 0));
    assert_eq!(refused(&[], &[], OWN), (3, 29));
    for wrong in [-1, 128, 255, 256, 256 + 0x48, i32::MIN, i32::MAX] {
        for pair in [[wrong, 0], [0, wrong], [wrong, wrong]] {
            assert_eq!(refused(&pair, &[], OWN), (3, 29));
            assert_eq!(refused(&[], &pair, OWN), (3, 29));
            assert_eq!(refused(&pair, &[0, 0], OWN), (3, 29));
            assert_eq!(refused(&[0, 0], &pair, OWN), (3, 29));
        }
    }
    for length in [1, 3, 4] {
        let pair = vec![0; length];
        assert_eq!(refused(&pair, &[], OWN), (3, 29));
        assert_eq!(refused(&[0, 0], &pair, OWN), (3, 29));
        assert_eq!(refused(&pair, &[0, 0], OWN), (3, 29));
    }
    for address in [1, 0x55, 255, 256, 0x154, u32::MAX, u32::MAX - 1] {
        assert_eq!(refused(&[0, 0], &[], address), (2, 0));
        // Before 3 and 10, as 3 is before 10.
        assert_eq!(refused(&[], &[], address), (2, 0));
        assert_eq!(plan_captions(&[128, 0], &[], address, &mut []).refusal, 2);
    }
    assert_eq!(plan_captions(&[], &[128, 0], OWN, &mut []).refusal, 3);
    assert_eq!(refused(&[0, 0], &[], 0), (0, 0));
    assert_eq!(refused(&[0, 0], &[], 254), (0, 0));
}

/// Plays captions as the chip's events make them, and by playing; the settings'
/// player refuses the same bytes.
fn both(list: &[(usize, &[u8])], used: u32) {
    let plan = packed(list);
    let mut chip = Chip::fresh(OWN as u8, image(), 0);
    let mut all = true;
    for (start, data) in list {
        all &= write(&mut chip, used, *start, data);
    }
    let mut played = image();
    let answer = play_captions(&mut played, 0, used, OWN, &plan);
    assert_eq!((answer.refusal, answer.field), (0, 0));
    assert_eq!((played, answer.acknowledged), (chip.registers, all as u32));
    assert_eq!(answer.known, chip.known);
    assert_eq!(all, used == OWN);
    let mut settings = image();
    let answer = play(&mut settings, ALL_KNOWN, used, OWN, &plan);
    assert_eq!((answer.refusal, answer.acknowledged), (9, 0));
    assert_eq!(settings, image());
}

#[test]
fn played() {
    for used in [OWN, OWN + 2] {
        both(&[(0x13, &[0xC8, 0x49])], used);
        both(&[(0x11, &[0x80, 0x80])], used);
        both(&[(0x11, &[0x01, 0xFE]), (0x13, &[0xC8, 0x49])], used);
        // Written even where the bytes are unchanged.
        let held = [image()[0x11], image()[0x12]];
        let held = held.map(|byte| with_parity(byte & 0x7F));
        both(&[(0x11, &held)], used);
    }
}

/// The refusal of playing captions; the image is then as it was.
fn unplayed(plan: &[u8]) -> u32 {
    let mut played = image();
    let answer = play_captions(&mut played, ALL_KNOWN, OWN, OWN, plan);
    assert!(answer.refusal == 0 || (played, answer.acknowledged) == (image(), 0));
    answer.refusal
}

#[test]
fn plans_that_planning_does_not_give() {
    let odd: &[u8] = &[0x80, 0x80];
    assert_eq!(unplayed(&packed(&[(0x11, odd), (0x13, odd)])), 0);
    // No transaction; four bytes at 11; one byte; three; 13 before 11; three of them.
    assert_eq!(unplayed(&packed(&[])), 9);
    assert_eq!(unplayed(&packed(&[(0x11, &[0x80; 4])])), 9);
    assert_eq!(unplayed(&packed(&[(0x11, &[0x80])])), 9);
    assert_eq!(unplayed(&packed(&[(0x13, &[0x80])])), 9);
    assert_eq!(unplayed(&packed(&[(0x11, &[0x80; 3])])), 9);
    assert_eq!(unplayed(&packed(&[(0x13, odd), (0x11, odd)])), 9);
    assert_eq!(unplayed(&packed(&[(0x11, odd), (0x11, odd)])), 9);
    assert_eq!(
        unplayed(&packed(&[(0x11, odd), (0x13, odd), (0x15, odd)])),
        9
    );
    // Every other start, and one or two transactions of settings.
    for start in (0..REGISTERS).filter(|start| ![0x11, 0x13].contains(start)) {
        assert_eq!(unplayed(&packed(&[(start, odd)])), 9, "{start:02X}");
        assert_eq!(unplayed(&packed(&[(0x11, odd), (start, odd)])), 9);
    }
    assert_eq!(unplayed(&[0x06, 0x00, 0x65, 0xC0]), 9);
    // Cut, extended, filled with a one; none at all.
    assert_eq!(unplayed(&HI[..4]), 9);
    assert_eq!(unplayed(&[&HI[..], &[0x00]].concat()), 9);
    assert_eq!(unplayed(&[0x05, 0x30, 0xB2, 0x12, 0x41]), 9);
    assert_eq!(unplayed(&[&BOTH[..], &[0x00]].concat()), 9);
    assert_eq!(unplayed(&[]), 9);
}

/// Every pair of bytes: taken exactly where both have an odd number of ones.
#[test]
fn even_ones() {
    for pair in 0..=u16::MAX {
        let data = pair.to_be_bytes();
        let odd = data.iter().all(|byte| byte.count_ones() % 2 == 1);
        let refusal = if odd { 0 } else { 9 };
        assert_eq!(unplayed(&packed(&[(0x13, &data)])), refusal);
        if !odd {
            assert_eq!(unplayed(&packed(&[(0x11, &data), (0x13, &[1, 1])])), 9);
            assert_eq!(unplayed(&packed(&[(0x11, &[1, 1]), (0x13, &data)])), 9);
        }
    }
}

#[test]
fn playing_refused() {
    let refusal = |length: usize, used: u32, own: u32, plan: &[u8]| {
        let mut image = vec![0; length];
        let answer = play_captions(&mut image, ALL_KNOWN, used, own, plan);
        assert!(image.iter().all(|&byte| byte == 0) || answer.refusal == 0);
        (answer.refusal, answer.field)
    };
    assert_eq!(refusal(54, OWN, OWN, &HI), (0, 0));
    for length in [0, 53, 55] {
        assert_eq!(refusal(length, OWN, OWN, &HI), (1, 0));
        assert_eq!(refusal(length, OWN + 1, OWN, &[]), (1, 0));
    }
    for address in [1, 0x55, 255, 256, 0x154, u32::MAX] {
        assert_eq!(refusal(54, address, OWN, &HI), (2, 0));
        assert_eq!(refusal(54, OWN, address, &HI), (2, 0));
        assert_eq!(refusal(54, address, address, &[]), (2, 0));
    }
}

#[test]
fn settings_plans() {
    let mut settings = [0; SETTINGS];
    settings[at::DNR_INPUT] = 1;
    for kind in [at::CURVE_A, at::CURVE_B] {
        settings[kind + at::CURVE_P] = 1;
        settings[kind + at::CURVE_Q] = 1;
    }
    let mut lent = [0; 64];
    let answer = plan(&image(), ALL_KNOWN, &settings, OWN, NO_LIMIT, &mut lent);
    assert_eq!(answer.refusal, 0);
    assert_eq!(unplayed(&lent[..answer.length as usize]), 9);
}

/// The answer of reading a pair of an image with these bytes at 11 to 14.
fn read_of(bytes: [u8; 4], pair: u32) -> CaptionsAnswer {
    let mut image = image();
    image[0x11..=0x14].copy_from_slice(&bytes);
    read_captions(&image, ALL_KNOWN, pair)
}

#[test]
fn read_back() {
    let answer = |refusal, field, first, second| CaptionsAnswer {
        refusal,
        field,
        first,
        second,
    };
    let bytes = [0x80, 0x7F, 0xC8, 0x49];
    assert_eq!(read_of(bytes, 0), answer(0, 0, 0x00, 0x7F));
    assert_eq!(read_of(bytes, 1), answer(0, 0, 0x48, 0x49));
    for pair in [2, 3, 29, 256, 1 << 31, u32::MAX] {
        assert_eq!(read_of(bytes, pair), answer(3, 29, 0, 0));
        // After 1, before 4.
        let short = read_captions(&[0; 53], ALL_KNOWN, pair);
        assert_eq!(short, answer(1, 0, 0, 0));
        assert_eq!(read_of([0; 4], pair), answer(3, 29, 0, 0));
    }
    // An even number of ones, in either byte, of either pair alone.
    assert_eq!(read_of([0x00, 0x7F, 0xC8, 0x49], 0), answer(4, 29, 0, 0));
    assert_eq!(read_of([0x80, 0xFF, 0xC8, 0x49], 0), answer(4, 29, 0, 0));
    assert_eq!(
        read_of([0x00, 0xFF, 0xC8, 0x49], 1),
        answer(0, 0, 0x48, 0x49)
    );
    assert_eq!(read_of([0x80, 0x7F, 0x48, 0x49], 1), answer(4, 29, 0, 0));
    assert_eq!(read_of([0x80, 0x7F, 0xC8, 0xC9], 1), answer(4, 29, 0, 0));
    for length in [0, 53, 55] {
        let wrong = read_captions(&vec![0x80; length], ALL_KNOWN, 0);
        assert_eq!(wrong, answer(1, 0, 0, 0));
    }
}

/// Every pair of characters: planned, sent, read back.
#[test]
fn round() {
    for pair in 0..1 << 14 {
        let characters = [pair >> 7, pair & 0x7F];
        let mut lent = [BEFORE; CAPTION_ROOM];
        let answer = plan_captions(&characters, &[0x20, 0x20], OWN, &mut lent);
        let plan = &lent[..answer.length as usize];
        let mut data = [0; 2];
        let sent = transaction(plan, 0, &mut data);
        assert_eq!((sent.refusal, sent.subaddress, sent.count), (0, 0x11, 2));
        let mut after = image();
        let played = play_captions(&mut after, ALL_KNOWN, OWN, OWN, plan);
        assert_eq!(played.acknowledged, 1);
        assert_eq!(after[0x11..=0x14], [data[0], data[1], 0x20, 0x20]);
        let read = read_captions(&after, ALL_KNOWN, 0);
        let read = (read.refusal, read.first as i32, read.second as i32);
        assert_eq!(read, (0, characters[0], characters[1]));
    }
}

#[test]
fn listed() {
    assert_eq!(caption_listing(b"HI"), "PLAN 1 4\n13 C8 49\n");
    let both = "PLAN 2 8\n11 80 80\n13 C8 49\n";
    assert_eq!(caption_listing(b"\0\0HI"), both);
    for input in [&b""[..], b"H", b"HI\n", b"HI!!\n", b"H\x80", b"\xFF\0HI"] {
        assert_eq!(caption_listing(input), "REFUSED 3 29\n");
    }
}
