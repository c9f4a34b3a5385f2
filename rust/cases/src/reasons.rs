//! Records of asking why a register is sent.

use crate::decimal;
use crate::known::{cgms, kinds, known, without};
use crate::limits::{comment, limit, wrong};
use crate::make::record;
use crate::pairs::FLIPPED;
use crate::plans::{house, wanted, with};
use crate::reason_boards::{Flip, CUT, GAPS, TOGETHER, UNKNOWN};
use plain::fields as at;
use plain::registers::REGISTERS;
use plain::{ALL_KNOWN, NO_LIMIT};

/// Subaddresses that are asked for one by one: past the last register.
const ASKED: std::ops::RangeInclusive<i64> = 0..=60;
/// Subaddresses that are a register's when they are cut to fewer bits, or would be past 32 bits.
const WIDE: [i64; 9] = [
    -1,
    64 + 0x20,
    128 + 0x20,
    256 + 0x20,
    (1 << 16) + 0x20,
    (1 << 31) + 0x20,
    u32::MAX as i64,
    (1 << 32) + 0x20,
    -0x20,
];
/// Registers of the word, one before it and one after it.
const AROUND_WORD: std::ops::RangeInclusive<usize> = 0x0B..=0x10;

/// Lines that are no records: no number, a word in place of one, lists that aren't bytes, two lists.
const NO_RECORDS: [&str; 7] = [
    "why",
    "why:00",
    "why 20h",
    "why 32:0",
    "why 32:00;00",
    "why 32;00",
    "Why 32:00",
];

/// Asking for a subaddress.
fn why(subaddress: i64, settings: &[i32], image: &[u8]) -> String {
    let head = format!("why {subaddress} {}", decimal(settings));
    record(head.trim_end().to_string(), image, "")
}

/// Asking for some registers with CGMS.
fn with_cgms(registers: impl IntoIterator<Item = usize>, image: &[u8]) -> Vec<String> {
    let asked = registers.into_iter();
    asked
        .map(|register| why(register as i64, &cgms(), image))
        .collect()
}

/// A board that has CGMS but for some bits.
fn flipped(flips: &[Flip]) -> [u8; REGISTERS] {
    let mut image = wanted(&cgms(), 0x00);
    for &(register, bits) in flips {
        image[register] ^= bits;
    }
    image
}

/// Some registers, all between them, and one more at each end.
fn around(registers: impl Iterator<Item = usize> + Clone) -> std::ops::RangeInclusive<usize> {
    let (first, last) = (registers.clone().min(), registers.max());
    first.map_or(0, |first| first.saturating_sub(1))..=last.map_or(0, |last| last + 1)
}

/// Why registers are sent.
pub fn reasons() -> Vec<String> {
    let mut lines = every_subaddress();
    lines.extend(fields());
    lines.extend(word());
    lines.extend(gaps());
    lines.extend(unknown());
    lines.extend(cut());
    lines.extend(orders());
    lines
}

/// Every register and some that are none, where all is wrong and where nothing is.
fn every_subaddress() -> Vec<String> {
    let mut lines = vec![comment(
        "Every register and past the last, over ones with CGMS; then wide numbers, and ones below zero.",
    )];
    let ones = [0xFF; REGISTERS];
    lines.extend(
        ASKED
            .chain(WIDE)
            .map(|register| why(register, &cgms(), &ones)),
    );
    lines.push(comment("The same where nothing is wrong."));
    let right = wanted(&cgms(), 0x00);
    lines.extend(
        ASKED
            .chain(WIDE)
            .map(|register| why(register, &cgms(), &right)),
    );
    lines.push(comment(
        "Off, CGMS and WSS: 18 to 1C, over zeros and over ones.",
    ));
    for (_, settings) in kinds() {
        for found in [0x00, 0xFF] {
            let asked = 0x18..=0x1C;
            lines.extend(asked.map(|register| why(register, &settings, &[found; REGISTERS])));
        }
    }
    lines
}

/// Each field alone, several in one register, and must-be-zero bits.
fn fields() -> Vec<String> {
    let mut lines = vec![comment(
        "Each field alone: its register and those beside it.",
    )];
    let signalling = [(0x19, 0x20), (0x1A, 0x01), (0x1B, 0x80)];
    let alone = FLIPPED
        .into_iter()
        .map(|(_, register, bits)| (register, bits));
    for flip in alone.chain(signalling) {
        let beside = around([flip.0].into_iter());
        lines.extend(with_cgms(beside, &flipped(&[flip])));
    }
    lines.push(comment(
        "Several fields in one register, the lowest is given; a field and must-be-zero bits; those alone.",
    ));
    for flip in TOGETHER {
        lines.extend(with_cgms([flip.0], &flipped(&[flip])));
    }
    lines
}

/// Every set of the word's registers.
fn word() -> Vec<String> {
    let mut lines = vec![comment(
        "Every set of the word's registers wrong: 0B to 10.",
    )];
    for set in 1..1 << 4 {
        let places = (0..4).filter(|place| set >> place & 1 == 1);
        let flips: Vec<Flip> = places.map(|place| (0x0C + place, 0x01)).collect();
        lines.extend(with_cgms(AROUND_WORD, &flipped(&flips)));
    }
    lines
}

/// Gaps: every register from one below to one above.
fn gaps() -> Vec<String> {
    let mut lines = Vec::new();
    for (name, flips) in GAPS {
        lines.push(comment(name));
        let around = around(flips.iter().map(|flip| flip.0));
        lines.extend(with_cgms(around, &flipped(flips)));
    }
    lines
}

/// Boards known in part.
fn unknown() -> Vec<String> {
    let mut lines = Vec::new();
    for (name, unknown, flips) in UNKNOWN {
        lines.push(comment(name));
        lines.push(known(without(unknown)));
        let asked = unknown
            .iter()
            .copied()
            .chain(flips.iter().map(|flip| flip.0));
        lines.extend(with_cgms(around(asked), &flipped(flips)));
    }
    lines.push(comment(
        "All but 00 to 02 are unknown, with flags past the last register.",
    ));
    lines.push(known(0b111 | !ALL_KNOWN));
    lines.extend(ASKED.map(|register| why(register, &cgms(), &flipped(&[(0x00, 1)]))));
    lines.push(comment("Off, 1A and 1B unknown: not sent."));
    lines.push(known(without(&[0x1A, 0x1B])));
    lines.extend((0x18..=0x1C).map(|register| why(register, &house(), &[0xFF; REGISTERS])));
    lines.push(known(ALL_KNOWN));
    lines
}

/// Runs that are longer than a small limit.
fn cut() -> Vec<String> {
    let mut lines = Vec::new();
    for (name, registers, limits) in CUT {
        lines.push(comment(name));
        for &given in limits {
            lines.push(limit(given));
            let around = around(registers.iter().copied());
            lines.extend(with_cgms(around, &wrong(registers)));
        }
    }
    lines.push(limit(NO_LIMIT.into()));
    lines
}

/// 1, the limit, the settings' count, the fields, 11; lines that are no records.
fn orders() -> Vec<String> {
    let image = wanted(&house(), 0x00);
    let fault = with(house(), &[(at::STANDARD, 2), (at::HUE, 225)]);
    let mut lines = vec![comment(
        "1, the limit, a wrong count, a field, 11: each before those that follow; then nothing wrong.",
    )];
    lines.push(known(0));
    for given in [3, 55, (1 << 32) + 4, 4, 54] {
        lines.push(limit(given));
        for (settings, image) in [
            (&fault[1..], &image[1..]),
            (&fault[1..], &image),
            (&fault, &image),
            (&house(), &image),
        ] {
            lines.push(why(0x20, settings, image));
            lines.push(why(WIDE[1], settings, image));
        }
    }
    lines.push(known(ALL_KNOWN));
    lines.push(why(0x20, &house(), &image));
    lines.push(why(0x20, &house(), &[]));
    lines.push(why(0x20, &[], &image));
    lines.push(comment("Lines that are no records."));
    lines.extend(NO_RECORDS.map(str::to_string));
    lines
}
