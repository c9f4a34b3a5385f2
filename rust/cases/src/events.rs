//! Records of bus events.

use crate::make::{numbered, record};
use crate::random::Random;
use plain::chip::{Chip, Event, Phase};
use plain::registers::REGISTERS;
use plain::ALL_KNOWN;

/// The boards' address.
const OWN: u8 = 0x54;
/// The first and the last address.
const ENDS: [u8; 2] = [0x00, 0xFE];
/// Seeded sequences, and the events of each.
const SEQUENCES: usize = 150;
const LENGTH: usize = 36;
/// The seed.
const SEED: u64 = 7194;
/// One in so many events is any event, whatever the chip waits for.
const SELDOM: u64 = 5;

/// How the chip is brought to each phase with its pointer at a register, from idle.
const PHASES: [&str; 5] = ["", "S", "S 54", "S 54 {}", "S 55"];
/// Registers to which the pointer is brought; 36 hexadecimal is past the last.
const POINTERS: [u8; 6] = [0x00, 0x20, 0x33, 0x34, 0x35, 0x36];
/// The events that find the chip so.
const FOUND: [&str; 13] = [
    "S", "P", "54", "55", "56", "00", "20", "34", "35", "36", "FF", "R", "N",
];

/// Sequences with what they show.
const NAMED: [(&str, &str); 13] = [
    ("A write transaction.", "S 54 20 97 P"),
    (
        "A read from a set pointer, ended by no acknowledge.",
        "S 54 20 S 55 R R N P",
    ),
    ("A wrong address, and a byte after it.", "S 56 20 P"),
    (
        "A subaddress above 35, pointer kept.",
        "S 54 10 P S 54 36 01 P S 55 N",
    ),
    (
        "34 acknowledged and dropped, then 35, then past it.",
        "S 54 34 01 02 03 04 P",
    ),
    (
        "A pointer past 35 reads 35 and becomes 35.",
        "S 54 35 09 S 55 R R N",
    ),
    (
        "Reading past the end stays at 35; after the last byte FF.",
        "S 54 34 S 55 R R R N N",
    ),
    (
        "A read that finds the chip idle, waiting for an address, a subaddress, data.",
        "R S R 54 S 54 N 01 S 54 20 R 01",
    ),
    (
        "A byte from the master while the chip sends.",
        "S 55 R 01 R",
    ),
    (
        "Start in the middle begins anew, stop in the middle goes idle.",
        "S 54 S 54 20 S 54 21 05 P 06 P S P 54",
    ),
    ("A fresh chip reads from 00.", "S 55 R N"),
    ("A transaction with no data.", "S 54 20 P S 55 N"),
    (
        "Two transactions, each finding the chip as the last one left it.",
        "S 54 20 97 P S 54 1D 01 02 P S 55 N",
    ),
];

/// A record of events.
fn events(own: u8, image: &[u8], events: &str) -> String {
    record(format!("events {own}"), image, events)
}

/// The named sequences.
pub(crate) fn named() -> Vec<String> {
    let mut lines = Vec::new();
    for (name, sequence) in NAMED {
        lines.push(format!("# {name}"));
        lines.push(events(OWN, &numbered(), sequence));
    }
    lines
}

/// Each phase, with the pointer at these registers, found by each kind of event.
pub(crate) fn found(pointers: &[u8]) -> Vec<String> {
    let name = "# Each phase, with the pointer at some registers, found by each kind of event.";
    let mut lines = vec![name.to_string()];
    for phase in PHASES {
        for &pointer in pointers {
            let at = |event: &str| events(OWN, &numbered(), &sequence(phase, pointer, event));
            lines.extend(FOUND.map(at));
        }
    }
    lines
}

/// Named sequences, then every phase and some pointers with each kind of event, then the first and the last address.
pub fn systematic() -> Vec<String> {
    let image = numbered();
    let mut lines = named();
    lines.extend(found(&POINTERS));
    lines.push("# The first and the last address.".to_string());
    for own in ENDS {
        for byte in [0x00, 0x01, 0x54, 0x55, 0xFE, 0xFF] {
            lines.push(events(own, &image, &format!("S {byte:02X} 20 R 97 P")));
        }
    }
    lines
}

/// The events that set the pointer, bring the chip to a phase and find it so.
fn sequence(phase: &str, pointer: u8, event: &str) -> String {
    let last = REGISTERS as u8 - 1;
    // Past the last register the pointer comes by a byte written to the last.
    let set = if pointer > last {
        format!("{last:02X} 00")
    } else {
        format!("{pointer:02X}")
    };
    let phase = phase.replace("{}", &set);
    let words = ["S 54", &set, "P", &phase, event];
    let words: Vec<&str> = words.into_iter().filter(|word| !word.is_empty()).collect();
    words.join(" ")
}

/// Seeded sequences on seeded images, most events such as the chip waits for.
pub fn seeded() -> Vec<String> {
    let mut random = Random(SEED);
    (0..SEQUENCES).map(|_| one(&mut random)).collect()
}

/// One seeded sequence.
fn one(random: &mut Random) -> String {
    let own = 2 * random.below(128) as u8;
    let image = std::array::from_fn(|_| random.byte());
    let mut chip = Chip::fresh(own, image, ALL_KNOWN);
    let mut words = Vec::new();
    for _ in 0..LENGTH {
        let event = if random.once_in(SELDOM) {
            any(random, own)
        } else {
            awaited(random, &chip, own)
        };
        chip.step(event);
        words.push(word(event));
    }
    events(own, &image, &words.join(" "))
}

/// An event as a record has it.
fn word(event: Event) -> String {
    match event {
        Event::Start => "S".to_string(),
        Event::Stop => "P".to_string(),
        Event::FromMaster(byte) => format!("{byte:02X}"),
        Event::ToMaster { acknowledged: true } => "R".to_string(),
        Event::ToMaster { .. } => "N".to_string(),
    }
}

/// Any event.
fn any(random: &mut Random, own: u8) -> Event {
    match random.below(6) {
        0 => Event::Start,
        1 => Event::Stop,
        2 => Event::FromMaster(own | random.below(2) as u8),
        3 => Event::FromMaster(random.byte()),
        _ => read(random),
    }
}

/// A byte to the master.
fn read(random: &mut Random) -> Event {
    let acknowledged = !random.once_in(4);
    Event::ToMaster { acknowledged }
}

/// An event such as the chip waits for.
fn awaited(random: &mut Random, chip: &Chip<REGISTERS>, own: u8) -> Event {
    match chip.phase {
        Phase::Idle => Event::Start,
        Phase::Address => Event::FromMaster(own + random.once_in(3) as u8),
        // Most subaddresses near the end.
        Phase::Subaddress if random.once_in(2) => Event::FromMaster(0x31 + random.below(6) as u8),
        Phase::Subaddress => Event::FromMaster(random.below(0x38) as u8),
        Phase::Data => Event::FromMaster(random.byte()),
        Phase::Sending => read(random),
    }
}
