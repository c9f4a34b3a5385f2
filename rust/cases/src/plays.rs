//! Records of playing.

use crate::make::{numbered, record};
use plain::registers::REGISTERS;

/// Hue alone, packed.
pub(crate) const HUE_PLAN: &str = "06 00 65 C0";

/// Packed plans with what they show.
const PLANS: [(&str, &str); 39] = [
    ("Hue alone.", HUE_PLAN),
    ("Nothing to do.", "00"),
    ("The word.", "04 C1 07 DF 3C 08 40"),
    (
        "From 0A over the word to 10.",
        "04 A1 E8 28 68 A8 E9 29 69 80",
    ),
    (
        "Two transactions that touch end to start.",
        "09 D0 80 40 9F 04 0C",
    ),
    ("The same with other data.", "09 D0 A0 20 5F 06 08"),
    ("The last register.", "07 50 5D C0"),
    ("Up to 33.", "07 01 00 40 80 C1 00"),
    ("The first register and a later one.", "08 00 7F E5 04 44"),
    ("No byte at all.", ""),
    ("Cut short.", "06 00 65"),
    ("One byte too long.", "06 00 65 C0 00"),
    ("A bit of fill set.", "06 00 65 C1"),
    ("Fill set in the empty plan.", "01"),
    ("The empty plan, one byte too long.", "00 00"),
    ("A zero count.", "06 00 00"),
    ("Descending starts.", "0A 00 40 5D 04 08"),
    ("The same with other data.", "0A 00 65 DD 06 00"),
    ("Overlapping.", "09 D0 80 40 9E 04 0C"),
    ("The same with other data.", "09 D0 A0 20 5E 06 08"),
    ("The same start.", "0A 00 40 60 04 08"),
    ("Data to 34.", "07 40 40 40"),
    ("Over 34.", "07 30 80 40 80"),
    ("Over 34 to 35.", "07 30 C0 40 80 C0"),
    ("0C alone.", "04 C0 40 40"),
    ("0D to 0F.", "04 D0 C0 40 80 C0"),
    ("0C to 0E.", "04 C0 C0 40 80 C0"),
    ("0B and 0C.", "04 B0 80 40 80"),
    ("0F and 10.", "04 F0 80 40 80"),
    ("11 alone.", "05 10 40 40"),
    ("14 alone.", "05 40 40 40"),
    ("10 and 11.", "05 00 80 40 80"),
    ("14 and 15.", "05 40 80 40 80"),
    ("10 to 15.", "05 01 80 40 80 C1 01 41 80"),
    ("Past 35.", "07 50 80 40 80"),
    ("36 alone.", "07 60 40 40"),
    ("3F alone.", "07 F0 40 40"),
    (
        "A good transaction, then one that breaks a rule.",
        "08 00 40 74 04 08",
    ),
    ("63 announced and none there.", "FC"),
];

/// Addresses used and own, image lengths and plans, with what they show.
const CALLS: [(&str, u32, u32, usize, &str); 15] = [
    ("Another chip's address.", 86, 84, 54, HUE_PLAN),
    ("The lowest address.", 0, 0, 54, HUE_PLAN),
    ("The highest address.", 254, 254, 54, HUE_PLAN),
    ("The chip's at 0, used 254.", 254, 0, 54, HUE_PLAN),
    ("An odd address used.", 85, 84, 54, HUE_PLAN),
    ("An odd address of the chip's own.", 84, 85, 54, HUE_PLAN),
    ("Address 256.", 256, 84, 54, HUE_PLAN),
    ("Own address 256.", 84, 256, 54, HUE_PLAN),
    (
        "Both far above.",
        4_294_967_294,
        4_294_967_294,
        54,
        HUE_PLAN,
    ),
    ("The empty plan at another address.", 86, 84, 54, "00"),
    ("An odd address and a bad plan.", 85, 84, 54, "01"),
    ("53 bytes.", 84, 84, 53, HUE_PLAN),
    ("55 bytes.", 84, 84, 55, HUE_PLAN),
    ("No image.", 84, 84, 0, HUE_PLAN),
    ("53 bytes and an odd address.", 85, 84, 53, HUE_PLAN),
];

/// Playing: plans, addresses and images.
pub fn plays() -> Vec<String> {
    let mut image = numbered().to_vec();
    image.push(REGISTERS as u8);
    let mut lines = Vec::new();
    let plans = PLANS.map(|(name, plan)| (name, 84, 84, REGISTERS, plan));
    for (name, used, own, length, plan) in plans.into_iter().chain(CALLS) {
        lines.push(format!("# {name}"));
        lines.push(record(format!("play {used} {own}"), &image[..length], plan));
    }
    lines
}
