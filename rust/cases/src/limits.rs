//! Records of planning with a limit on a transaction's data.

use crate::known::{cgms, kinds, planned, without};
use crate::make::{numbered, record};
use crate::plans::{house, plan, wanted, with, ADDRESS};
use plain::fields::{self as at, SETTINGS};
use plain::registers::{self as reg, REGISTERS};
use plain::{ALL_KNOWN, NO_LIMIT};

/// Limits that are tried one by one: past both ends of what is right.
const LIMITS: std::ops::RangeInclusive<i64> = 0..=60;
/// Limits that are right when they are cut to fewer bits, or would be past 32 bits.
const WIDE: [i64; 8] = [
    -4,
    64 + 10,
    256 + 10,
    (1 << 16) + 54,
    (1 << 31) + 4,
    u32::MAX as i64,
    (1 << 32) + 4,
    (1 << 32) + 54,
];
/// The least limit.
const LEAST: i64 = 4;
/// Room for any packed plan.
const MOST_ROOM: usize = 54;
/// Room for those of a few registers.
const ROOM: usize = 16;

/// What is wrong on a board: its registers, the limits to plan with, and what it shows.
type Board = (&'static str, &'static [usize], &'static [i64]);
/// Boards with CGMS.
const BOARDS: [Board; 14] = [
    (
        "19, 1B and 1D: neither the longest piece nor the widest gap first.",
        &[0x19, 0x1B, 0x1D],
        &[4, 5],
    ),
    ("1D to 22: the shorter transaction first.", &SIX, &[4, 5, 6]),
    (
        "19 to 1B, 1D and 1E: cut at the gap.",
        &[0x19, 0x1A, 0x1B, 0x1D, 0x1E],
        &[4, 5, 6],
    ),
    (
        "1D to 25: three transactions.",
        &[0x1D, 0x1E, 0x1F, 0x20, 0x21, 0x22, 0x23, 0x24, 0x25],
        &[4, 5, 7, 8, 9],
    ),
    (
        "1D, 1F, 21, 23 and 25: every gap is one.",
        &[0x1D, 0x1F, 0x21, 0x23, 0x25],
        &[4, 5, 6, 8, 9],
    ),
    (
        "1D, 20, 23 and 26: every gap is two.",
        &[0x1D, 0x20, 0x23, 0x26],
        &[4, 6, 7, 9, 10],
    ),
    (
        "1D to 1F, 21 and 22: a gap of one is a byte cheaper to cut than none.",
        &[0x1D, 0x1E, 0x1F, 0x21, 0x22],
        &[4, 5, 6],
    ),
    (
        "1D, 20 to 22: a gap of two is free to cut.",
        &[0x1D, 0x20, 0x21, 0x22],
        &[4, 5, 6],
    ),
    ("The word's last register.", &[0x0F], &[4, 5]),
    (
        "The word and 10: it ends a piece, or 10 follows in it.",
        &[0x0C, 0x10],
        &[4, 5],
    ),
    ("The word's middle and 10.", &[0x0E, 0x10], &[4, 5, 6]),
    (
        "00, 01, 02 and 05: the gap of 03 and 04.",
        &[0x00, 0x01, 0x02, 0x05],
        &[4, 5, 6],
    ),
    ("02 and 05.", &[0x02, 0x05], &[4, 5]),
    (
        "2F to 33, the last that can be set.",
        &[0x2F, 0x30, 0x31, 0x32, 0x33],
        &[4, 5],
    ),
];
/// Unknown registers beside what is wrong, with CGMS.
const UNKNOWN: [(&str, &[usize], &[usize]); 6] = [
    (
        "1C is unknown between 1B and 1D: no bridge, whatever the limit.",
        &[0x1C],
        &[0x19, 0x1A, 0x1B, 0x1D, 0x1E],
    ),
    (
        "03 is unknown between 02 and 05.",
        &[0x03],
        &[0x00, 0x01, 0x02, 0x05],
    ),
    (
        "1E and 20 are unknown: they are needed.",
        &[0x1E, 0x20],
        &[0x1D, 0x1F, 0x21, 0x22],
    ),
    ("The word's 0D is unknown, and 10.", &[0x0D, 0x10], &[]),
    (
        "19 to 1D are unknown.",
        &[0x19, 0x1A, 0x1B, 0x1C, 0x1D],
        &[0x1E, 0x1F],
    ),
    (
        "23 to 29 are unknown.",
        &[0x23, 0x24, 0x25, 0x26, 0x27, 0x28, 0x29],
        &[0x22, 0x2A],
    ),
];
/// Registers of which every set is tried: all that are in one run at most.
const SETS: [usize; 7] = [0x19, 0x1A, 0x1B, 0x1D, 0x1E, 0x1F, 0x20];
/// Lines that are no records: no number, two, a list in place of it, lists beside it.
const NO_RECORDS: [&str; 6] = [
    "limit",
    "limit 4 5",
    "limit:04",
    "limit 4:04",
    "limit 4;04",
    "limit four",
];
/// Registers in a row, more than a small limit, and a packed plan that writes them at once.
const SIX: [usize; 6] = [0x1D, 0x1E, 0x1F, 0x20, 0x21, 0x22];
const SIX_PLAN: &str = "05 D1 80 40 80 C1 01 41 80";
/// The ordinary pair HI, planned.
const HI: &str = "caption 84 0 2 72 73;EE EE EE EE EE EE";

/// The line that gives a limit to the records after it.
pub(crate) fn limit(limit: i64) -> String {
    format!("limit {limit}")
}

/// A comment.
pub(crate) fn comment(text: &str) -> String {
    format!("# {text}")
}

/// A board that has CGMS but for these registers.
pub(crate) fn wrong(registers: &[usize]) -> [u8; REGISTERS] {
    let mut image = wanted(&cgms(), 0x00);
    for &register in registers {
        image[register] ^= match register {
            reg::MODE_1 => reg::FOUR_TIMES_BIT,
            reg::MODE_2 => reg::PEDESTAL_BIT,
            _ => 1,
        };
    }
    image
}

/// Planning with limits.
pub fn limits() -> Vec<String> {
    let mut lines = every_limit();
    lines.extend(boards());
    lines.extend(unknown());
    lines.extend(sets());
    lines.extend(rooms());
    lines.extend(orders());
    lines.extend(others());
    lines
}

/// Every limit over boards that need much: zeros and ones under each kind of signalling, and
/// nothing to do.
fn every_limit() -> Vec<String> {
    let name = "Every limit: over zeros and ones, off, CGMS and WSS; 54 before any line gives one.";
    let boards: Vec<([u8; REGISTERS], [i32; SETTINGS])> = kinds()
        .into_iter()
        .flat_map(|(_, settings)| [0x00, 0xFF].map(|found| ([found; REGISTERS], settings)))
        .collect();
    let all = || {
        boards
            .iter()
            .map(|(image, s)| plan(image, s, ADDRESS, MOST_ROOM))
    };
    let mut lines = vec![comment(name)];
    lines.extend(all());
    for given in LIMITS {
        lines.push(limit(given));
        lines.extend(all());
    }
    lines.push(comment("Wide ones, and one below zero."));
    for given in WIDE {
        lines.push(limit(given));
        lines.push(plan(&wrong(&[0x20]), &cgms(), ADDRESS, ROOM));
    }
    lines
}

/// Boards of which some registers are wrong.
fn boards() -> Vec<String> {
    let mut lines = Vec::new();
    for (name, registers, limits) in BOARDS {
        lines.push(comment(name));
        for &given in limits.iter().chain([&i64::from(NO_LIMIT)]) {
            lines.push(limit(given));
            lines.push(plan(&wrong(registers), &cgms(), ADDRESS, ROOM));
        }
    }
    lines
}

/// Boards of which some registers are unknown too; then all but 00 to 02.
fn unknown() -> Vec<String> {
    let mut lines = Vec::new();
    for (name, unknown, registers) in UNKNOWN {
        lines.push(comment(name));
        for given in [4, 5, 6, 7, 54] {
            lines.push(limit(given));
            let image = wrong(registers);
            lines.extend(planned(without(unknown), &image, &cgms(), ROOM));
        }
    }
    lines.push(comment("All but 00 to 02 are unknown."));
    for given in [4, 5, 8, 12, 22, 23, 54] {
        lines.push(limit(given));
        lines.extend(planned(0b111, &wrong(&[]), &cgms(), MOST_ROOM));
    }
    lines.push(planned(ALL_KNOWN, &wrong(&[]), &cgms(), ROOM)[0].clone());
    lines
}

/// Every set of some registers, with two limits.
fn sets() -> Vec<String> {
    let mut lines = vec![comment(
        "Every set of 19, 1A, 1B, 1D, 1E, 1F and 20 wrong, with 4 and with 5.",
    )];
    for given in [4, 5] {
        lines.push(limit(given));
        for set in 1..1 << SETS.len() {
            let places = (0..SETS.len()).filter(|place| set >> place & 1 == 1);
            let registers: Vec<usize> = places.map(|place| SETS[place]).collect();
            lines.push(plan(&wrong(&registers), &cgms(), ADDRESS, ROOM));
        }
    }
    lines
}

/// The longest packed plans: one byte of room less, and as many as they take.
fn rooms() -> Vec<String> {
    let mut lines = vec![comment(
        "The longest packed plans: 53 bytes with 4, 50 with 5, 44 with 23 and with 54.",
    )];
    for (given, length) in [(4, 53), (5, 50), (23, 44), (54, 44)] {
        lines.push(limit(given));
        for room in [length - 1, length, length + 1] {
            lines.push(plan(&[0xFF; REGISTERS], &cgms(), ADDRESS, room));
        }
    }
    lines
}

/// The limit after 1 and 2, and before the count of settings, the fields, 11 and 10.
fn orders() -> Vec<String> {
    let image = wanted(&house(), 0x00);
    let fault = with(house(), &[(at::STANDARD, 2)]);
    let mut lines = vec![comment(
        "1 and 2 before the limit, and it before a wrong count, a field, 11 and 10.",
    )];
    for given in [3, 55, 4, 54] {
        lines.push(limit(given));
        lines.push(plan(&image[1..], &house(), ADDRESS, 0));
        lines.push(plan(&image, &house(), ADDRESS + 1, 0));
        lines.push(plan(&image, &house()[1..], ADDRESS, 0));
        lines.push(plan(&image, &fault, ADDRESS, 0));
        lines.extend(planned(without(&[0x00]), &image, &house(), 0));
        lines.extend(planned(ALL_KNOWN, &image, &house(), 0));
    }
    lines
}

/// Captions and playing don't take the limit; lines that are no records leave it.
fn others() -> Vec<String> {
    let six = plan(&wrong(&SIX), &cgms(), ADDRESS, ROOM);
    let mut lines = vec![comment("Captions and playing don't take it.")];
    for given in [3, LEAST] {
        lines.push(limit(given));
        lines.push(HI.to_string());
        lines.push(record(
            format!("play {ADDRESS} {ADDRESS}"),
            &numbered(),
            SIX_PLAN,
        ));
    }
    lines.push(comment(
        "Lines that are no records: the limit is as it was.",
    ));
    lines.push(limit(5));
    lines.extend(NO_RECORDS.map(str::to_string));
    lines.push(six);
    lines
}
