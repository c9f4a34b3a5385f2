//! Records of boards known in part: read back, their captions, and the chip at its events.

use crate::captions::holding;
use crate::events as sequences;
use crate::known::{kinds, known, without, OTHERS, PAST};
use crate::make::{numbered, record};
use crate::plans::{house, wanted};
use plain::registers::{CAPTIONS, CAPTION_BYTES, REGISTERS};
use plain::ALL_KNOWN;

/// A register's byte, and an unknown register: a fault before 11, or one after it.
const FAULTS: [(usize, u8, usize); 16] = [
    (0x00, 0x03, 0x00),
    (0x00, 0x03, 0x02),
    (0x02, 0x18, 0x02),
    (0x02, 0x18, 0x01),
    (0x02, 0x18, 0x05),
    (0x05, 0x46, 0x05),
    (0x05, 0x06, 0x10),
    (0x19, 0x80, 0x1A),
    (0x19, 0x80, 0x1D),
    (0x1D, 0xC1, 0x1D),
    (0x1D, 0xC1, 0x1E),
    (0x21, 0x9F, 0x20),
    (0x23, 0x99, 0x23),
    (0x25, 0x05, 0x24),
    (0x0C, 0x00, 0x33),
    (0x0C, 0x00, 0x0F),
];
/// Pairs of captions, and a number that is none.
const PAIRS: [u32; 3] = [0, 1, 2];
/// H and I as the ordinary pair, packed; both pairs; a plan that is none of captions.
const CAPTION_PLANS: [&str; 3] = ["05 30 B2 12 40", "09 10 A0 20 13 0B 21 24", "06 00 65 C0"];
/// Registers to which a chip's pointer is brought.
const POINTERS: [u8; 3] = [0x20, 0x34, 0x35];

/// Reading boards known in part.
pub fn reads() -> Vec<String> {
    let mut lines = fields();
    lines.extend(faults());
    lines.extend(captions());
    lines
}

/// The flags, and reading an image.
fn read(flags: u64, image: &[u8]) -> [String; 2] {
    [known(flags), record("read".to_string(), image, "")]
}

/// Every register unknown alone; all; flags past the last.
fn fields() -> Vec<String> {
    let mut lines = Vec::new();
    for (kind, settings) in kinds() {
        let image = wanted(&settings, 0x00);
        lines.push(format!(
            "# Signalling {kind}: every register unknown alone."
        ));
        lines.extend((0..REGISTERS).flat_map(|register| read(without(&[register]), &image)));
        lines.push(
            "# All unknown; flags past the last register alone, and with all others.".to_string(),
        );
        lines.extend(
            [0, PAST, PAST | ALL_KNOWN]
                .into_iter()
                .flat_map(|flags| read(flags, &image)),
        );
    }
    lines
}

/// Faults before and after an unknown register; 1 before 11.
fn faults() -> Vec<String> {
    let mut lines = vec![
        "# An unknown register and a fault: that of the lower field, 11 first in the same one."
            .to_string(),
    ];
    for (register, byte, unknown) in FAULTS {
        let mut image = wanted(&house(), 0x00);
        image[register] = byte;
        lines.extend(read(without(&[unknown]), &image));
    }
    lines.push("# 53 bytes.".to_string());
    lines.extend(read(0, &numbered()[1..]));
    lines
}

/// Captions read back and played, with flags.
fn captions() -> Vec<String> {
    let mut lines = vec![
        "# Captions: 10 to 15 unknown in turn, and all; odd and even ones; 53 bytes.".to_string(),
    ];
    let in_turn = (CAPTIONS - 1..=CAPTIONS + CAPTION_BYTES).map(|register| without(&[register]));
    for flags in in_turn.chain([0, PAST, 0b11 << 0x11, 0b11 << 0x13]) {
        lines.push(known(flags));
        for pair in PAIRS {
            let head = format!("readcap {pair}");
            let images = [
                holding([0x80, 0x01, 0xC8, 0x49]),
                holding([0; CAPTION_BYTES]),
            ];
            lines.extend(images.map(|image| record(head.clone(), &image, "")));
        }
    }
    lines.push(record("readcap 2".to_string(), &numbered()[1..], ""));
    lines.push("# Captions played: what they make known.".to_string());
    for flags in [0, OTHERS, u64::MAX] {
        lines.push(known(flags));
        for plan in CAPTION_PLANS {
            for head in ["playcap 84 84", "playcap 86 84", "playcap 85 84"] {
                lines.push(record(head.to_string(), &numbered(), plan));
            }
        }
    }
    lines
}

/// The chip at its events: what each makes known.
pub fn events() -> Vec<String> {
    let mut lines = vec!["# Nothing known.".to_string(), known(0)];
    lines.extend(sequences::named());
    lines.extend(sequences::found(&POINTERS));
    lines.push("# Every other register known, and every other flag past the last.".to_string());
    lines.push(known(OTHERS));
    lines.extend(sequences::named());
    lines
}
