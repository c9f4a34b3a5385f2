//! The records that are stored, file by file.

use crate::codings::PLACES;
use crate::{
    captions, events, hex, house, known, known_plays, known_reads, limits, plans, plays,
    progressive, reasons, signalling, together,
};
use plain::registers::REGISTERS;

/// How many numbers are tried past a range on either side.
const PAST: i32 = 2;
/// The widest field whose every code is tried as a setting.
const FEW_CODES: u32 = 4;
/// A wider field's codes are tried up to the last byte.
const MANY_CODES: u32 = 6;
/// The lowest and the highest setting of each field of `PLACES`.
const RANGES: [(i32, i32); PLACES.len()] = [
    (0, 1),
    (0, 1),
    (0, 1),
    (0, 1),
    (0, 1),
    (0, 2),
    (0, 1),
    (-3, 3),
    (0, 1),
    (0, 255),
    (0, 1500),
    (0, 1996),
    (0, 1996),
    (-225, 224),
    (-75, 150),
    (-6, 6),
    (0, 8),
    (0, 8),
    (0, 63),
    (0, 1),
    (0, 1),
    (1, 4),
    (0, 1),
    (0, 15),
];

/// Every file that is made: its name and its records.
pub fn files() -> Vec<(&'static str, String)> {
    vec![
        ("captions", text(captions::captions())),
        ("codings", text(codings())),
        ("curves_and_words", text(plans::curves_and_words())),
        ("events", text(events::systematic())),
        ("events_seeded", text(events::seeded())),
        ("house", text(house::records())),
        ("known_events", text(known_reads::events())),
        ("known_plans", text(known::plans())),
        ("known_plays", text(known_plays::plays())),
        ("known_reads", text(known_reads::reads())),
        ("limits", text(limits::limits())),
        ("plans", text(plans::plans())),
        ("plays", text(plays::plays())),
        ("progressive_plans", text(progressive::plans::plans())),
        ("progressive_plays", text(progressive::plays::plays())),
        ("progressive_ranges", text(progressive::ranges::ranges())),
        ("progressive_reads", text(progressive::reads::reads())),
        ("reasons", text(reasons::reasons())),
        ("refused_together", text(together::refused_together())),
        ("signalling", text(signalling::signalling())),
    ]
}

/// Lines as one text.
fn text(lines: Vec<String>) -> String {
    lines.into_iter().map(|line| line + "\n").collect()
}

/// An image in which each register holds its number.
pub(crate) fn numbered() -> [u8; REGISTERS] {
    std::array::from_fn(|register| register as u8)
}

/// A record with an image and a second list, each left out where it is empty.
pub(crate) fn record(head: String, image: &[u8], second: &str) -> String {
    let image = hex(image);
    let colon = if image.is_empty() { "" } else { ":" };
    let semicolon = if second.is_empty() { "" } else { ";" };
    format!("{head}{colon}{image}{semicolon}{second}")
}

/// Every setting of every field from below its range to above it and the ends of what a number can
/// hold, and every code that its bits can hold with two more.
fn codings() -> Vec<String> {
    let mut lines = Vec::new();
    for ((field, _, _, width), (low, high)) in PLACES.into_iter().zip(RANGES) {
        let codes = 1 << width;
        let last = if width <= FEW_CODES { codes - 1 } else { high };
        let near = low.min(0) - PAST..=last.max(high) + PAST;
        let settings = near.chain([i32::MIN, i32::MAX]);
        lines.extend(settings.map(|setting| format!("code {field} {setting}")));
        let codes = if width > MANY_CODES {
            256
        } else {
            codes + PAST
        };
        let codes = 0..codes;
        lines.extend(codes.map(|code| format!("setting {field}:{code:02X}")));
    }
    lines
}
