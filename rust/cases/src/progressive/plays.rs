//! Records of playing on the ADV7195.

use super::packed;
use crate::hex;
use crate::known::known;
use crate::limits::comment;
use crate::make::record;
use plain::progressive::published::{holding, power_up};
use plain::progressive::registers::{MODE_3, MODE_6};
use plain::progressive::Image;

/// A list of transactions: a first register and data.
type List = &'static [(usize, &'static [u8])];

/// A transaction that is sent again and again.
const AGAIN: (usize, &[u8]) = (0x20, &[1]);

/// Lists in any order, with what they show.
const LISTS: [(&str, List); 32] = [
    ("Nothing to do.", &[]),
    ("One register.", &[(0x27, &[0x97])]),
    (
        "All of 00 to 09.",
        &[(0x00, &[1, 2, 3, 0x38, 5, 6, 7, 8, 9, 10])],
    ),
    ("All of 10 to 27.", &[(0x10, &[0x5A; 24])]),
    ("Descending.", &[(0x20, &[1]), (0x1F, &[2]), (0x00, &[3])]),
    ("End to start.", &[(0x1D, &[1, 2]), (0x1F, &[3])]),
    ("Overlapping.", &[(0x1D, &[1, 2, 3]), (0x1E, &[4, 5, 6])]),
    ("One in another.", &[(0x1D, &[1, 2, 3]), (0x1E, &[4])]),
    ("The same register twice.", &[(0x20, &[1]), (0x20, &[2])]),
    ("The same transaction twice.", &[(0x20, &[1]), (0x20, &[1])]),
    ("0A alone.", &[(0x0A, &[1])]),
    ("0F alone.", &[(0x0F, &[1])]),
    ("0C and 0D.", &[(0x0C, &[1, 2])]),
    ("09 and 0A.", &[(0x09, &[1, 2])]),
    ("0F and 10.", &[(0x0F, &[1, 2])]),
    ("Over all reserved ones.", &[(0x09, &[0; 8])]),
    ("00 to 27.", &[(0x00, &[0; 40])]),
    ("27 and past it.", &[(0x27, &[1, 2])]),
    ("28 alone.", &[(0x28, &[1])]),
    ("34 alone.", &[(0x34, &[1])]),
    ("3F alone.", &[(0x3F, &[1])]),
    ("A start and data past 63.", &[(0x3F, &[0; 40])]),
    ("No data.", &[(0x20, &[])]),
    ("No data to 0A.", &[(0x0A, &[])]),
    ("No data past the end.", &[(0x3F, &[])]),
    ("A good one, then no data.", &[(0x20, &[1]), (0x20, &[])]),
    ("A good one, then 0A.", &[(0x20, &[1]), (0x0A, &[1])]),
    ("0A, then a good one.", &[(0x0A, &[1]), (0x20, &[1])]),
    ("25 transactions.", &[AGAIN; 25]),
    ("Registers of the other chip.", &[(0x0C, &[1; 4])]),
    ("Bits that must be zero.", &[(0x00, &[0xA0]), (0x05, &[1])]),
    (
        "Codes that reading refuses.",
        &[(0x00, &[0x0F]), (0x02, &[0x3F])],
    ),
];

/// MR36 turned on, and off, in a transaction of its own.
const ON: (usize, &[u8]) = (0x03, &[0x78]);
const OFF: (usize, &[u8]) = (0x03, &[0x38]);
/// 3E written to 09, and another byte.
const PREPARE: (usize, &[u8]) = (0x09, &[0x3E]);
const OTHER: (usize, &[u8]) = (0x09, &[0x3F]);
/// Transactions from 03 and from 02 on, up to 09.
const ON_AND_3E: (usize, &[u8]) = (0x03, &[0x78, 0, 0, 0, 0, 0, 0x3E]);
const ON_AND_OTHER: (usize, &[u8]) = (0x02, &[0, 0x78, 0, 0, 0, 0, 0, 0xA5]);
const OFF_AND_3E: (usize, &[u8]) = (0x03, &[0x38, 0, 0, 0, 0, 0, 0x3E]);

/// Lists with MR36 and 09, with what they show where MR36 is off before them.
const ORDERS: [(&str, List); 27] = [
    ("MR36 on without 3E.", &[ON]),
    ("MR36 as it is.", &[OFF]),
    ("3E, then MR36 on.", &[PREPARE, ON]),
    ("MR36 on, then 3E.", &[ON, PREPARE]),
    ("3E, MR36 on, another byte.", &[PREPARE, ON, OTHER]),
    ("One transaction with both.", &[ON_AND_3E]),
    ("The same, prepared.", &[PREPARE, ON_AND_3E]),
    ("MR36 as it is and 3E, then on.", &[OFF_AND_3E, ON]),
    (
        "Prepared, on with another byte to 09.",
        &[PREPARE, ON_AND_OTHER],
    ),
    ("The same, then off again.", &[PREPARE, ON_AND_OTHER, OFF]),
    ("Another byte, then on.", &[OTHER, ON]),
    ("3E, another byte, then on.", &[PREPARE, OTHER, ON]),
    (
        "3E, another byte, 3E, then on.",
        &[PREPARE, OTHER, PREPARE, ON],
    ),
    ("3E twice, then on.", &[PREPARE, PREPARE, ON]),
    (
        "3E, another register, then on.",
        &[PREPARE, (0x10, &[1]), ON],
    ),
    ("3E with 08, then on.", &[(0x08, &[1, 0x3E]), ON]),
    ("3E to 08, then on.", &[(0x08, &[0x3E]), ON]),
    (
        "3E to 08 and another to 09, then on.",
        &[(0x08, &[0x3E, 1]), ON],
    ),
    ("On and off.", &[PREPARE, ON, OFF]),
    ("On, off and on.", &[PREPARE, ON, OFF, ON]),
    ("On, on again.", &[PREPARE, ON, ON]),
    ("On, another byte, off.", &[PREPARE, ON, OTHER, OFF]),
    ("On, another byte, on again.", &[PREPARE, ON, OTHER, ON]),
    (
        "On, another byte, 3E, off.",
        &[PREPARE, ON, OTHER, PREPARE, OFF],
    ),
    (
        "On, off without 3E, 3E.",
        &[PREPARE, ON, OTHER, OFF, PREPARE],
    ),
    ("MR36 on in the middle.", &[PREPARE, (0x02, &[1, 0x40, 2])]),
    ("The other bits of 03.", &[(0x03, &[0x00]), (0x03, &[0x3F])]),
];
/// 03 and 09 before them: MR36 off and on, 09 with and without 3E.
const HELD: [(u8, u8); 4] = [(0x38, 0x00), (0x38, 0x3E), (0x78, 0x00), (0x78, 0x3E)];

/// Bytes that break the packing, with what they show.
const BYTES: [(&str, &str); 10] = [
    ("No byte at all.", ""),
    ("Fill set in the empty plan.", "01"),
    ("The empty plan, one byte too long.", "00 00"),
    ("63 announced and none there.", "FC"),
    ("A plan as it should be.", "06 00 65 C0"),
    ("Cut short.", "06 00 65"),
    ("Cut to a byte.", "06"),
    ("One byte too long.", "06 00 65 C0 00"),
    ("A bit of fill set.", "06 00 65 C1"),
    ("Two announced and one there.", "0A 00 65 C0"),
];

/// Addresses used and own, and the length of the image.
const CALLS: [(i64, i64, usize); 18] = [
    (84, 84, 40),
    (86, 84, 40),
    (84, 86, 40),
    (0, 0, 40),
    (254, 254, 40),
    (254, 0, 40),
    (85, 84, 40),
    (84, 85, 40),
    (85, 85, 40),
    (256, 84, 40),
    (84, 256, 40),
    (340, 84, 40),
    (-2, -2, 40),
    (84, 84, 0),
    (84, 84, 39),
    (84, 84, 41),
    (84, 84, 54),
    (85, 84, 39),
];
/// Lines that are no records: a number too few, too many, lists that aren't bytes, other words.
const NO_RECORDS: [&str; 9] = [
    "play7195",
    "play7195 84",
    "play7195 84 84 84",
    "play7195 84 x",
    "play7195 84 84:0",
    "play7195 84 84;P",
    "play719 84 84",
    "play71955 84 84",
    "play7194 84 84",
];

/// A record of playing.
fn play((used, own): (i64, i64), image: &[u8], plan: &str) -> String {
    record(format!("play7195 {used} {own}"), image, plan)
}

/// The same of a list at the boards' address, and at another chip's.
fn played(image: &Image, list: List) -> [String; 2] {
    let plan = hex(&packed(list));
    [(84, 84), (86, 84)].map(|addresses| play(addresses, image, &plan))
}

/// Playing: orders and overlaps, 3E before MR36, bytes that break the packing, addresses and lengths.
pub fn plays() -> Vec<String> {
    let mut lines = Vec::new();
    for (name, list) in LISTS {
        lines.push(comment(name));
        lines.extend(played(&power_up(), list));
    }
    for (three, nine) in HELD {
        let image = holding(power_up(), &[(MODE_3, three), (MODE_6, nine)]);
        for (name, list) in ORDERS {
            lines.push(comment(&format!("03 {three:02X}, 09 {nine:02X}. {name}")));
            lines.extend(played(&image, list));
        }
    }
    for (name, plan) in BYTES {
        lines.push(comment(name));
        lines.push(play((84, 84), &power_up(), plan));
    }
    lines.extend(calls());
    lines
}

/// Addresses and lengths, with a good plan, one without 3E, the empty one and bytes that break the packing.
fn calls() -> Vec<String> {
    let image = [power_up().to_vec(), vec![0x00; 14]].concat();
    let plans = [&[PREPARE, ON][..], &[ON], &[]].map(|list| hex(&packed(list)));
    let mut lines = vec![comment(
        "Addresses and lengths: a good plan, one without 3E, the empty one, bytes that are no plan.",
    )];
    for (used, own, length) in CALLS {
        for plan in plans.iter().map(String::as_str).chain(["01"]) {
            lines.push(play((used, own), &image[..length], plan));
        }
    }
    let good = play((84, 84), &power_up(), &plans[0]);
    lines.push(comment("No register known: flags aren't for this chip."));
    lines.extend([known(0), good]);
    lines.push(comment("Lines that are no records."));
    lines.extend(NO_RECORDS.map(str::to_string));
    lines
}
