//! Records of boards known in part: played.

use crate::known::{known, OTHERS, PAST};
use crate::make::{numbered, record};
use crate::plans::ADDRESS;
use crate::plays::HUE_PLAN;
use plain::registers::REGISTERS;
use plain::ALL_KNOWN;

/// Packed plans to play, with what they show.
const PLANS: [(&str, &str); 8] = [
    ("Hue alone.", HUE_PLAN),
    ("Nothing to do.", "00"),
    ("The word.", "04 C1 07 DF 3C 08 40"),
    (
        "From 0A over the word to 10.",
        "04 A1 E8 28 68 A8 E9 29 69 80",
    ),
    (
        "Two transactions that touch end to start.",
        "09 D0 80 40 9F 04 0C",
    ),
    ("The last register.", "07 50 5D C0"),
    ("Up to 33.", "07 01 00 40 80 C1 00"),
    ("Data to 34.", "07 40 40 40"),
];
/// Flags to play them with.
const FLAGS: [u64; 5] = [0, ALL_KNOWN, OTHERS, PAST, u64::MAX];
/// The address used, the chip's own, the length of the image and the plan, with what they show.
const CALLS: [(&str, u32, u32, usize, &str); 5] = [
    ("Another chip's address.", 86, 84, 54, HUE_PLAN),
    ("The empty plan at another address.", 86, 84, 54, "00"),
    ("An odd address.", 85, 84, 54, HUE_PLAN),
    ("53 bytes.", 84, 84, 53, HUE_PLAN),
    ("Cut short.", 84, 84, 54, "06 00 65"),
];
/// Lines that are no records: no flags, numbers, too few or too many bytes, no bytes, a second list.
const NO_RECORDS: [&str; 9] = [
    "known",
    "known 1",
    "known:00",
    "known:3F FF FF FF FF FF FF",
    "known:00 00 3F FF FF FF FF FF FF",
    "known:S S S S S S S S",
    "known;00 3F FF FF FF FF FF FF",
    "known:00 3F FF FF FF FF FF FF;00",
    "known 1:00 3F FF FF FF FF FF FF",
];

/// Playing on boards known in part: the flags after it stand after the image.
pub fn plays() -> Vec<String> {
    let play = |used: u32, own: u32, length: usize, plan: &str| {
        record(format!("play {used} {own}"), &numbered()[..length], plan)
    };
    let before = play(ADDRESS, ADDRESS, REGISTERS, HUE_PLAN);
    let mut lines = vec![
        "# All known before any flags are given, and none shown.".to_string(),
        before.clone(),
    ];
    for flags in FLAGS {
        lines.push(known(flags));
        let plans = PLANS.map(|(name, plan)| (name, ADDRESS, ADDRESS, REGISTERS, plan));
        for (name, used, own, length, plan) in plans.into_iter().chain(CALLS) {
            lines.push(format!("# {name}"));
            lines.push(play(used, own, length, plan));
        }
    }
    lines.push("# Lines that are no records: the flags are as they were.".to_string());
    lines.push(known(OTHERS));
    lines.extend(NO_RECORDS.map(str::to_string));
    lines.push(before);
    lines
}
