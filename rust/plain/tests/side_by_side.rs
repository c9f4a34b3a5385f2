//! Two images side by side, against the papers' words; the texts are written by
//! hand.

use plain::registers::{self as reg, REGISTERS};
use plain::{compare, outside, raw_code, side_by_side, CompareAnswer, LAST_FIELD};

/// The registers of the house setting with the pedestal on, written by hand from document 01's
/// table.
fn house_with_pedestal() -> [u8; REGISTERS] {
    let mut image = [0; REGISTERS];
    image[0x01] = 0x40;
    image[0x02] = 0x08;
    image[0x0C..=0x0F].copy_from_slice(&[0x1F, 0x7C, 0xF0, 0x21]);
    image[0x1D..=0x20].fill(0x80);
    image[0x22] = 0x06;
    image[0x25] = 0x01;
    for first in [0x26, 0x2D] {
        let curve = [0x20, 0x40, 0x60, 0x80, 0xA0, 0xC0, 0xE0];
        image[first..first + 7].copy_from_slice(&curve);
    }
    image
}

/// The text of that image beside the same with some registers changed.
fn beside(changed: &[(usize, u8)]) -> String {
    let mut image = house_with_pedestal();
    for &(register, byte) in changed {
        image[register] = byte;
    }
    side_by_side(&house_with_pedestal(), &image)
}

#[test]
fn equal_images_and_register_34() {
    assert_eq!(beside(&[]), "DIFFERENCES 0\n");
    assert_eq!(beside(&[(0x34, 0xFF)]), "DIFFERENCES 0\n");
}

#[test]
fn settings_of_both() {
    let pal = [
        (0x00, 0x01),
        (0x01, 0x00),
        (0x02, 0x00),
        (0x0C, 0xCB),
        (0x0D, 0x8A),
        (0x0E, 0x09),
        (0x0F, 0x2A),
        (0x20, 0x69),
        (0x35, 0x10),
    ];
    let text =
        "DIFFERENCES 6\n1 standard NTSC | PAL\n3 4x oversampling yes | no\n4 pedestal yes | no\n\
                15 hue 0 tenths of a degree | -40 tenths of a degree\n\
                28 subcarrier word 21F07C1F | 2A098ACB\nregister 35 00 | 10\n";
    assert_eq!(beside(&pal), text);
}

#[test]
fn raw_codes_where_one_is_refused() {
    let text = "DIFFERENCES 3\n2 square pixel raw 00 | 10\n8 clamp delay raw 00 | 70\nregister 02 00 | 01\n";
    assert_eq!(beside(&[(0x02, 0x19), (0x05, 0x70)]), text);
    let word = "DIFFERENCES 1\n28 subcarrier word raw 1F 7C F0 21 | 1F 7C F0 20\n";
    assert_eq!(beside(&[(0x0F, 0x20)]), word);
}

#[test]
fn bits_that_count_to_a_field() {
    let off = "DIFFERENCES 1\n11 signalling off | off\n";
    for (register, byte) in [(0x19, 0x0F), (0x1A, 0x80), (0x1B, 0x01)] {
        assert_eq!(beside(&[(register, byte)]), off);
    }
    let brightness = "DIFFERENCES 1\n16 brightness raw 00 | 80\n";
    assert_eq!(beside(&[(0x21, 0x80)]), brightness);
    let sharpness = "DIFFERENCES 1\n17 sharpness raw 06 | 16\n";
    assert_eq!(beside(&[(0x22, 0x16)]), sharpness);
}

#[test]
fn another_length() {
    let refused = CompareAnswer {
        refusal: 1,
        ..CompareAnswer::default()
    };
    for length in [0, 53, 55] {
        let image = vec![0; length];
        assert_eq!(compare(&image, &house_with_pedestal()), refused);
        assert_eq!(compare(&house_with_pedestal(), &image), refused);
        assert_eq!(side_by_side(&image, &image), "REFUSED 1 0\n");
    }
}

#[test]
fn every_bit_is_one_fields_or_outside() {
    for register in 0..REGISTERS {
        for bit in 0..8 {
            let mut image = [0; REGISTERS];
            image[register] = 1 << bit;
            let has = |&field: &u32| raw_code(&image, field).iter().any(|&byte| byte != 0);
            let fields = (1..=LAST_FIELD).filter(has).count();
            let out = (outside(register) >> bit & 1) as usize;
            assert_eq!(fields + out, 1, "bit {bit} of {register:02X}");
            let answer = compare(&[0; REGISTERS], &image);
            let listed = answer.fields.count_ones() + answer.registers.count_ones();
            assert_eq!(listed, (register != reg::READ_ONLY) as u32);
        }
    }
}
