//! Records of field 11: settings planned, registers read.

use crate::make::record;
use crate::plans::{house, pal, plan, wanted, with, ADDRESS};
use plain::fields as at;
use plain::registers as reg;

/// CGMS: payload, odd field, even field, chip check.
const CGMS: [[i32; 4]; 23] = [
    [0, 1, 1, 0],
    [1, 1, 1, 0],
    [2, 1, 1, 0],
    [3, 1, 1, 0],
    [4660, 1, 1, 0],
    [5461, 1, 1, 0],
    [10922, 1, 1, 0],
    [16383, 1, 1, 0],
    [-1, 1, 1, 0],
    [16384, 1, 1, 0],
    [0, 0, 0, 0],
    [0, 1, 0, 0],
    [0, 0, 1, 0],
    [0, 0, 0, 1],
    [0, 1, 0, 1],
    [4660, 1, 1, 1],
    [0, -1, 1, 0],
    [0, 2, 1, 0],
    [0, 1, -1, 0],
    [0, 1, 2, 0],
    [0, 1, 1, -1],
    [0, 1, 1, 2],
    [i32::MIN, 1, 1, 0],
];

/// WSS numbers past every group of the lowest four bits.
const WSS: [i32; 9] = [
    4657,
    16376,
    16379,
    16382,
    16383,
    16384,
    16385,
    i32::MIN,
    i32::MAX,
];

/// Registers 19, 1A, 1B: good ones, then damaged ones; read as NTSC and as PAL.
const SIGNALS: [[u8; 3]; 22] = [
    [0x61, 0x80, 0x00],
    [0x62, 0xD2, 0x34],
    [0x6B, 0x3F, 0xFF],
    [0x21, 0x80, 0x00],
    [0x71, 0x80, 0x00],
    [0x60, 0x80, 0x00],
    [0x61, 0x00, 0x00],
    [0x61, 0xC0, 0x00],
    [0x69, 0x80, 0x00],
    [0x61, 0x80, 0x01],
    [0xE1, 0x80, 0x00],
    [0x70, 0x80, 0x00],
    [0x80, 0x00, 0x01],
    [0x80, 0x3F, 0xFE],
    [0x80, 0x12, 0x31],
    [0x80, 0x00, 0x00],
    [0x80, 0x00, 0x03],
    [0x80, 0x40, 0x01],
    [0x81, 0x00, 0x01],
    [0x90, 0x00, 0x01],
    [0x10, 0x00, 0x01],
    [0x0F, 0xFF, 0xFF],
];

/// Field 11: settings of CGMS and WSS, and registers 19 to 1B as NTSC and as PAL.
pub fn signalling() -> Vec<String> {
    let ntsc = wanted(&house(), 0x00);
    let square = wanted(&pal(), 0x00);
    let mut lines = vec!["# CGMS: the packed plan has registers 19 to 1B.".to_string()];
    for [payload, odd, even, check] in CGMS {
        let numbers = [
            (at::SIGNALLING, at::CGMS),
            (at::PAYLOAD, payload),
            (at::ODD, odd),
            (at::EVEN, even),
            (at::CHIP_CHECK, check),
        ];
        lines.push(plan(&ntsc, &with(house(), &numbers), ADDRESS, 6));
    }
    lines
        .push("# WSS: every group of the lowest four bits, and the ends of the range.".to_string());
    for number in (-2..=33).chain(WSS) {
        let numbers = [(at::SIGNALLING, at::WSS), (at::PAYLOAD, number)];
        lines.push(plan(&square, &with(pal(), &numbers), ADDRESS, 6));
    }
    lines.push("# CGMS with PAL, WSS with NTSC, a kind that is none.".to_string());
    for (settings, kind) in [
        (pal(), at::CGMS),
        (house(), at::WSS),
        (house(), 3),
        (house(), -1),
    ] {
        let numbers = [(at::SIGNALLING, kind), (at::PAYLOAD, 1), (at::ODD, 1)];
        lines.push(plan(&ntsc, &with(settings, &numbers), ADDRESS, 6));
    }
    lines.push("# Registers 19 to 1B read, as NTSC and as PAL.".to_string());
    for bytes in SIGNALS {
        for image in [ntsc, square] {
            let mut image = image;
            image[reg::SIGNAL_TOP..][..bytes.len()].copy_from_slice(&bytes);
            lines.push(record("read".to_string(), &image, ""));
        }
    }
    lines
}
