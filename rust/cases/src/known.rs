//! Records of boards known in part: planned.

use crate::hex;
use crate::plans::{house, pal, plan, wanted, with, ADDRESS};
use plain::fields::{self as at, SETTINGS};
use plain::registers::{REGISTERS, WORD};
use plain::ALL_KNOWN;

/// Flags past the last register.
pub(crate) const PAST: u64 = !ALL_KNOWN;
/// Every other register, and every other flag past the last.
pub(crate) const OTHERS: u64 = 0x5555_5555_5555_5555;
/// Room for nearly all plans here, and for every one.
const ROOM: usize = 12;
const MOST_ROOM: usize = 46;
/// Registers that settings can fix in part, and those beside 19.
const PARTS: [usize; 6] = [0x00, 0x01, 0x02, 0x19, 0x1A, 0x1B];
/// Some of them together.
const TOGETHER: [&[usize]; 7] = [
    &[0x00, 0x02],
    &[0x01, 0x02],
    &[0x00, 0x01, 0x02],
    &[0x01, 0x19],
    &[0x02, 0x1A, 0x1B],
    &[0x1A, 0x1B],
    &[0x19, 0x1A, 0x1B],
];

/// Unknown registers around a gap: what is unknown, the bits that are wrong, and what it shows.
type Gap = (&'static str, &'static [usize], &'static [(usize, u8)]);
/// The pedestal's bit and the lowest of 05, two registers apart.
const ENDS: &[(usize, u8)] = &[(0x02, 0x08), (0x05, 0x01)];
/// Gaps with signalling off.
const GAPS: [Gap; 11] = [
    ("02 and 05 are wrong, all known: joined.", &[], ENDS),
    ("03 unknown between them.", &[0x03], ENDS),
    ("04 unknown between them.", &[0x04], ENDS),
    ("Both unknown.", &[0x03, 0x04], ENDS),
    ("05 unknown: joined with 02.", &[0x05], &[(0x02, 0x08)]),
    ("05 unknown, and 04.", &[0x04, 0x05], &[(0x02, 0x08)]),
    (
        "1D and 20 wrong, 1E unknown: it is needed.",
        &[0x1E],
        &[(0x1D, 1), (0x20, 1)],
    ),
    ("1D wrong, 21 unknown: not joined.", &[0x21], &[(0x1D, 1)]),
    ("1D wrong, 20 unknown: joined.", &[0x20], &[(0x1D, 1)]),
    (
        "18 and 1C unknown, beside what is needed.",
        &[0x18, 0x1C],
        &[(0x19, 0x80), (0x1D, 1)],
    ),
    (
        "06 and 35 unknown: neither is needed.",
        &[0x06, 0x35],
        &[(0x05, 1), (0x33, 1)],
    ),
];
/// Gaps with CGMS.
const CGMS_GAPS: [Gap; 4] = [
    (
        "CGMS: 1B and 1D are wrong, all known: joined.",
        &[],
        &[(0x1B, 1), (0x1D, 1)],
    ),
    ("1C unknown between them.", &[0x1C], &[(0x1B, 1), (0x1D, 1)]),
    ("1B, 1C and 1D unknown.", &[0x1B, 0x1C, 0x1D], &[]),
    (
        "1A unknown between 19 and 1B.",
        &[0x1A],
        &[(0x19, 0x40), (0x1B, 1)],
    ),
];

/// The line that gives flags to the records after it.
pub(crate) fn known(flags: u64) -> String {
    format!("known:{}", hex(&flags.to_be_bytes()))
}

/// The flags of a board of which these registers are unknown.
pub(crate) fn without(registers: &[usize]) -> u64 {
    registers
        .iter()
        .fold(ALL_KNOWN, |flags, r| flags & !(1 << r))
}

/// Settings with CGMS.
pub(crate) fn cgms() -> [i32; SETTINGS] {
    let both = [(at::ODD, 1), (at::EVEN, 1)];
    let payload = [(at::SIGNALLING, at::CGMS), (at::PAYLOAD, 4660)];
    with(with(house(), &payload), &both)
}

/// PAL with WSS.
pub(crate) fn wss() -> [i32; SETTINGS] {
    with(pal(), &[(at::SIGNALLING, at::WSS), (at::PAYLOAD, 4657)])
}

/// Each kind of signalling, with its name.
pub(crate) fn kinds() -> [(&'static str, [i32; SETTINGS]); 3] {
    [("off", house()), ("CGMS", cgms()), ("WSS", wss())]
}

/// Planning over boards known in part.
pub fn plans() -> Vec<String> {
    let mut lines = fixed_in_part();
    lines.extend(each_register());
    lines.extend(gaps());
    lines.extend(word());
    lines.extend(all_unknown());
    lines.extend(orders());
    lines
}

/// The flags, and planning settings over an image.
pub(crate) fn planned(flags: u64, image: &[u8], settings: &[i32], room: usize) -> [String; 2] {
    [known(flags), plan(image, settings, ADDRESS, room)]
}

/// What settings fix in part, unknown alone and together, under each kind of signalling.
fn fixed_in_part() -> Vec<String> {
    let mut lines = Vec::new();
    for (kind, settings) in kinds() {
        lines.push(format!("# Signalling {kind}: 00, 01, 02, 19, 1A, 1B unknown, over what is wanted and over ones."));
        for register in PARTS {
            let image = wanted(&settings, 0x00);
            lines.extend(planned(without(&[register]), &image, &settings, ROOM));
            let ones = [0xFF; REGISTERS];
            lines.extend(planned(without(&[register]), &ones, &settings, MOST_ROOM));
        }
        lines.push(
            "# Some of them together: the lowest field, not the lowest register.".to_string(),
        );
        for registers in TOGETHER {
            let image = wanted(&settings, 0x00);
            lines.extend(planned(without(registers), &image, &settings, ROOM));
        }
    }
    lines
}

/// Every register unknown alone, where the board has what is wanted.
fn each_register() -> Vec<String> {
    let mut lines =
        vec!["# Every register unknown alone, over what is wanted: off, then CGMS.".to_string()];
    for settings in [house(), cgms()] {
        let image = wanted(&settings, 0x5A);
        for register in 0..REGISTERS {
            lines.extend(planned(without(&[register]), &image, &settings, ROOM));
        }
    }
    lines
}

/// Unknown next to what is needed, and in a gap that would be joined.
fn gaps() -> Vec<String> {
    let of_house = GAPS.map(|gap| (gap, house()));
    let of_cgms = CGMS_GAPS.map(|gap| (gap, cgms()));
    let mut lines = Vec::new();
    for ((name, unknown, wrong), settings) in of_house.into_iter().chain(of_cgms) {
        let mut image = wanted(&settings, 0x00);
        wrong
            .iter()
            .for_each(|&(register, bits)| image[register] ^= bits);
        lines.push(format!("# {name}"));
        lines.extend(planned(without(unknown), &image, &settings, ROOM));
    }
    lines
}

/// The word's registers unknown, one by one and together, and next to it.
fn word() -> Vec<String> {
    let mut lines = vec!["# The word's registers unknown one by one, then all, then with 10, then all with 0B and 11.".to_string()];
    let image = wanted(&house(), 0x00);
    let one_by_one = (WORD..WORD + 4).map(|register| vec![register]);
    let others = [
        vec![0x0C, 0x0D, 0x0E, 0x0F],
        vec![0x0F, 0x10],
        vec![0x0B, 0x0C, 0x0D, 0x0E, 0x0F, 0x11],
    ];
    for unknown in one_by_one.chain(others) {
        lines.extend(planned(without(&unknown), &image, &house(), ROOM));
        // Another word is wanted besides.
        lines.extend(planned(without(&unknown), &image, &pal(), ROOM));
    }
    lines
}

/// All unknown; all that settings fix in whole; the largest plan.
fn all_unknown() -> Vec<String> {
    let mut lines =
        vec!["# All unknown; then all but 00, 01 and 02; then all but those and 19.".to_string()];
    for (_, settings) in kinds() {
        for flags in [0, 0b111, 0b111 | 1 << 0x19] {
            let image = wanted(&settings, 0x5A);
            lines.extend(planned(flags, &image, &settings, MOST_ROOM));
        }
    }
    lines.push(
        "# The largest plan of all, 350 bits: 1C is unknown, and can't be a bridge.".to_string(),
    );
    for room in [43, 44, 46] {
        lines.extend(planned(without(&[0x1C]), &[0xFF; REGISTERS], &cgms(), room));
    }
    lines
}

/// 11 after the fields and before 10; flags past the last register.
fn orders() -> Vec<String> {
    let image = wanted(&house(), 0x00);
    let last = with(house(), &[(at::CURVE_B + at::CURVE_Q, 4)]);
    let mut lines = vec!["# 1, 2, 3 and a field's fault before 11; 11 before 10; 10.".to_string()];
    lines.push(known(0));
    lines.push(plan(&image[1..], &house(), ADDRESS, ROOM));
    lines.push(plan(&image, &house(), ADDRESS + 1, ROOM));
    lines.push(plan(&image, &house()[1..], ADDRESS, ROOM));
    lines.push(plan(&image, &last, ADDRESS, ROOM));
    lines.push(plan(&image, &house(), ADDRESS, 0));
    lines.extend(planned(without(&[0x05]), &image, &house(), 3));
    lines.push(
        "# Flags past the last register: alone, with all others, with all but 05, without 00."
            .to_string(),
    );
    for flags in [
        PAST,
        PAST | ALL_KNOWN,
        PAST | without(&[0x05]),
        PAST | without(&[0x00]),
    ] {
        lines.extend(planned(flags, &image, &house(), ROOM));
    }
    lines
}
