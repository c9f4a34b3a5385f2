//! Records of captions: planned, played by both players, read back.

use crate::make::{numbered, record};
use crate::plans::{ADDRESS, BEFORE};
use crate::{decimal, hex};
use plain::registers::{CAPTIONS, CAPTION_BYTES, REGISTERS};
use plain::{with_parity, CAPTION_ROOM};

/// The extended pair, as it is read back.
const EXTENDED: u32 = 0;
/// The ordinary pair.
const ORDINARY: u32 = 1;
/// Characters: two nulls, and H and I.
const NULLS: [i32; 2] = [0x00, 0x00];
const HI: [i32; 2] = [0x48, 0x49];
/// The last character.
const LAST: i32 = 0x7F;
/// Numbers that are no characters.
const NONE: [i32; 7] = [-1, 128, 200, 255, 256 + 0x48, i32::MIN, i32::MAX];
/// The most room tried, and a wrong count of characters.
const MOST_ROOM: usize = CAPTION_ROOM + 2;
const TOO_MANY: usize = 3;
/// H and I as the ordinary pair, packed.
const HI_PLAN: &str = "05 30 B2 12 40";

/// Packed plans with what they show; both players get them.
const PLANS: [(&str, &str); 44] = [
    ("The ordinary pair.", HI_PLAN),
    ("The extended pair.", "05 10 B2 12 40"),
    ("Both pairs.", "09 10 A0 20 13 0B 21 24"),
    ("The empty plan.", "00"),
    (
        "Both pairs in one transaction of four at 11.",
        "05 11 20 20 32 12 40",
    ),
    ("13 before 11.", "09 30 B2 12 51 0A 02 00"),
    ("The extended pair twice.", "09 10 A0 20 11 0A 02 00"),
    ("The ordinary pair twice.", "09 30 B2 12 53 0B 21 24"),
    ("One byte at 11.", "05 10 60 00"),
    ("One byte at 13.", "05 30 72 00"),
    ("Three bytes at 11.", "05 10 E0 20 32 00"),
    ("Two bytes at 12.", "05 20 A0 32 00"),
    ("One byte at 11, two at 13.", "09 10 60 13 0B 21 24"),
    ("Two bytes at 10.", "05 00 A0 20 00"),
    ("Two bytes at 14.", "05 40 A0 20 00"),
    (
        "Four transactions of one byte.",
        "11 10 60 12 06 01 30 72 14 05 24",
    ),
    ("Both pairs, then hue.", "0D 10 A0 20 13 0B 21 26 00 65 C0"),
    ("The ordinary pair, then hue.", "09 30 B2 12 60 06 5C"),
    (
        "The subcarrier phase, then the ordinary pair.",
        "09 00 65 D3 0B 21 24",
    ),
    ("No data at 11.", "05 10 00"),
    (
        "No data at 11, then the ordinary pair.",
        "09 10 13 0B 21 24",
    ),
    ("Even ones: 11.", "05 10 80 20 00"),
    ("Even ones: 12.", "05 10 A0 20 40"),
    ("Even ones: 13.", "05 30 92 12 40"),
    ("Even ones: 14.", "05 30 B2 32 40"),
    ("Even ones: 11 of both pairs.", "09 10 80 20 13 0B 21 24"),
    ("Even ones: 12 of both pairs.", "09 10 A0 00 13 0B 21 24"),
    ("Even ones: 13 of both pairs.", "09 10 A0 20 13 09 21 24"),
    ("Even ones: 14 of both pairs.", "09 10 A0 20 13 0B 23 24"),
    ("Cut short.", "05 30 B2 12"),
    ("Both pairs cut short.", "09 10 A0 20 13 0B 21"),
    ("One byte too long.", "05 30 B2 12 40 00"),
    (
        "Both pairs, one byte too long.",
        "09 10 A0 20 13 0B 21 24 00",
    ),
    ("A bit of fill set.", "05 30 B2 12 41"),
    ("Both pairs, a bit of fill set.", "09 10 A0 20 13 0B 21 25"),
    ("One announced, both there.", "05 10 A0 20 13 0B 21 24"),
    ("Two announced, one there.", "09 30 B2 12 40"),
    ("No byte at all.", ""),
    ("63 announced and none there.", "FC"),
    ("Settings: hue alone.", "06 00 65 C0"),
    ("Settings: the word.", "04 C1 07 DF 3C 08 40"),
    ("Settings: the last register.", "07 50 5D C0"),
    (
        "Settings: the first register and a later one.",
        "08 00 7F E5 04 44",
    ),
    ("Settings: data to 34.", "07 40 40 40"),
];

/// Addresses used and own, image lengths and plans, with what they show.
const CALLS: [(&str, u32, u32, usize, &str); 14] = [
    ("Another chip's address.", 86, 84, 54, HI_PLAN),
    ("The lowest address.", 0, 0, 54, HI_PLAN),
    ("The highest address.", 254, 254, 54, HI_PLAN),
    ("The chip's at 0, used 254.", 254, 0, 54, HI_PLAN),
    ("An odd address used.", 85, 84, 54, HI_PLAN),
    ("An odd address of the chip's own.", 84, 85, 54, HI_PLAN),
    ("Address 256.", 256, 84, 54, HI_PLAN),
    ("Own address 340.", 84, 340, 54, HI_PLAN),
    ("The empty plan at another address.", 86, 84, 54, "00"),
    ("An odd address and a bad plan.", 85, 84, 54, "01"),
    ("53 bytes.", 84, 84, 53, HI_PLAN),
    ("55 bytes.", 84, 84, 55, HI_PLAN),
    ("No image.", 84, 84, 0, HI_PLAN),
    ("53 bytes and an odd address.", 85, 84, 53, HI_PLAN),
];

/// Lines that are no records: too few numbers, characters that aren't as many as they say, counts that are no
/// counts, a list too many.
const NO_RECORDS: [&str; 13] = [
    "caption",
    "caption 84 0",
    "caption 84 0 2 72;EE",
    "caption 84 0 2 72 73 74;EE",
    "caption 84 2 2 72 73;EE",
    "caption 84 9 0 0 0 0 0 0 0 0 0 0;EE",
    "caption 84 -1 1;EE",
    "caption 84 0 2 72 73:80;EE",
    "captions 84 0 2 72 73;EE",
    "playcap 84;00",
    "playcap 84 84 84;00",
    "readcap",
    "readcap 0;00",
];

/// A record of planning captions.
fn plan(extended: &[i32], ordinary: &[i32], address: u32, room: usize) -> String {
    let characters = decimal(&[extended, ordinary].concat());
    let counts = format!("{} {}", extended.len(), ordinary.len());
    let head = format!("caption {address} {counts} {characters}");
    let lent = hex(&vec![BEFORE; room]);
    record(head.trim_end().to_string(), &[], &lent)
}

/// Captions planned, played and read back.
pub fn captions() -> Vec<String> {
    let mut lines = characters();
    lines.extend(rooms());
    lines.extend(addresses());
    lines.extend(refused());
    lines.extend(plays());
    lines.extend(reads());
    lines.push("# Lines that are no records.".to_string());
    lines.extend(NO_RECORDS.map(str::to_string));
    lines
}

/// Every character: planned as the first of the ordinary pair, and the last one less it as the second; the plan
/// played, which shows both bytes at 13 and 14.
fn characters() -> Vec<String> {
    let mut lines = Vec::new();
    for character in 0..=LAST {
        let pair = [character, LAST - character];
        let [first, second] = pair.map(|character| with_parity(character as u8));
        lines.push(format!(
            "# {:02X} and {:02X} leave as {first:02X} and {second:02X}.",
            pair[0], pair[1]
        ));
        lines.push(plan(&[], &pair, ADDRESS, CAPTION_ROOM));
        let mut packed = [0; CAPTION_ROOM];
        let planned = plain::plan_captions(&[], &pair, ADDRESS, &mut packed);
        let packed = hex(&packed[..planned.length as usize]);
        lines.push(record("playcap 84 84".to_string(), &numbered(), &packed));
    }
    lines
}

/// Each pair alone and both, with every room; the EIA-608 null pair, 80 80, among them.
fn rooms() -> Vec<String> {
    let mut lines = Vec::new();
    let pairs: [(&str, &[i32], &[i32]); 5] = [
        ("The null pair, extended: 80 80.", &NULLS, &[]),
        ("The null pair, ordinary: 80 80.", &[], &NULLS),
        ("Both null pairs.", &NULLS, &NULLS),
        ("H and I in the ordinary pair.", &[], &HI),
        ("H and I extended, the null pair ordinary.", &HI, &NULLS),
    ];
    for (name, extended, ordinary) in pairs {
        lines.push(format!("# {name} Every room."));
        lines.extend((0..=MOST_ROOM).map(|room| plan(extended, ordinary, ADDRESS, room)));
    }
    lines
}

/// Addresses, even and odd, and above all.
fn addresses() -> Vec<String> {
    let mut lines = vec!["# Addresses.".to_string()];
    let addresses = [0, 86, 254, 85, 255, 256, 340, u32::MAX - 1, u32::MAX];
    lines.extend(addresses.map(|address| plan(&NULLS, &HI, address, CAPTION_ROOM)));
    lines
}

/// Every number that is no character, at every place; every count; and what is refused first.
fn refused() -> Vec<String> {
    let mut lines = vec!["# Numbers that are no characters, at each place.".to_string()];
    for none in NONE {
        for pair in [[none, 0], [0, none]] {
            lines.push(plan(&pair, &[], ADDRESS, CAPTION_ROOM));
            lines.push(plan(&[], &pair, ADDRESS, CAPTION_ROOM));
            lines.push(plan(&pair, &HI, ADDRESS, CAPTION_ROOM));
            lines.push(plan(&HI, &pair, ADDRESS, CAPTION_ROOM));
        }
    }
    lines.push("# None to three characters in each pair, and eight.".to_string());
    for extended in 0..=TOO_MANY {
        for ordinary in 0..=TOO_MANY {
            let pairs = [vec![0; extended], vec![0; ordinary]];
            lines.push(plan(&pairs[0], &pairs[1], ADDRESS, CAPTION_ROOM));
        }
    }
    lines.push(plan(&[0; 8], &[0; 8], ADDRESS, CAPTION_ROOM));
    lines.push("# 2 before 3 and 10, and 3 before 10.".to_string());
    for (extended, ordinary, address) in [
        (&[][..], &[][..], ADDRESS + 1),
        (&[], &[LAST + 1, 0], ADDRESS + 1),
        (&[], &HI, ADDRESS + 1),
        (&[], &[], ADDRESS),
        (&[], &[LAST + 1, 0], ADDRESS),
        (&NULLS[..1], &HI, ADDRESS),
    ] {
        lines.push(plan(extended, ordinary, address, 0));
    }
    lines
}

/// Plans, addresses and images for both players.
fn plays() -> Vec<String> {
    let mut image = numbered().to_vec();
    image.push(REGISTERS as u8);
    let mut lines = Vec::new();
    let plans = PLANS.map(|(name, plan)| (name, ADDRESS, ADDRESS, REGISTERS, plan));
    for (name, used, own, length, plan) in plans.into_iter().chain(CALLS) {
        lines.push(format!("# {name}"));
        for player in ["playcap", "play"] {
            let head = format!("{player} {used} {own}");
            lines.push(record(head, &image[..length], plan));
        }
    }
    lines
}

/// An image with these bytes at 11 to 14.
pub(crate) fn holding(bytes: [u8; CAPTION_BYTES]) -> [u8; REGISTERS] {
    let mut image = numbered();
    image[CAPTIONS..][..bytes.len()].copy_from_slice(&bytes);
    image
}

/// Every byte read as the first and as the second of a pair; pairs that there aren't; images of another length.
fn reads() -> Vec<String> {
    let read = |pair: &str, image: &[u8]| record(format!("readcap {pair}"), image, "");
    let (extended, ordinary) = (EXTENDED.to_string(), ORDINARY.to_string());
    let mut lines = vec!["# Every byte at 11, and at 14.".to_string()];
    for byte in 0..=u8::MAX {
        lines.push(read(&extended, &holding([byte, 0xC8, 0x00, 0x00])));
        lines.push(read(&ordinary, &holding([0x00, 0x00, 0x49, byte])));
    }
    lines.push("# Even ones in one byte, and each pair read.".to_string());
    let odd = [0x80, 0x01, 0xC8, 0x49];
    for place in 0..odd.len() {
        let mut bytes = odd;
        bytes[place] ^= 0x80;
        lines.extend([&extended, &ordinary].map(|pair| read(pair, &holding(bytes))));
    }
    lines.push("# Pairs that there aren't, before even ones and after the length.".to_string());
    for pair in [
        "2",
        "3",
        "17",
        "29",
        "256",
        "4294967295",
        "4294967296",
        "-1",
    ] {
        lines.push(read(pair, &holding(odd)));
        lines.push(read(pair, &holding([0; 4])));
        lines.push(read(pair, &numbered()[1..]));
    }
    lines.push("# Images that aren't 54 bytes.".to_string());
    let long = [0x80; REGISTERS + 1];
    for length in [0, REGISTERS - 1, REGISTERS + 1] {
        lines.extend([&extended, &ordinary].map(|pair| read(pair, &long[..length])));
    }
    lines
}
