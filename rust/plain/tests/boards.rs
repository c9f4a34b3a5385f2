//! Planning and playing over boards known in part, against the papers' words.

#[path = "common/boards.rs"]
mod boards;
mod common;
#[path = "common/lowest.rs"]
mod lowest;

use boards::{plan, settled, three, with, OWN, PAST, ROOM};
use common::{packed, write};
use lowest::lowest_field;
use plain::chip::Chip;
use plain::fields::{self as at, SETTINGS};
use plain::registers::{REGISTERS, WORD_MAP};
use plain::{house, play, transaction, ALL_KNOWN, MOST_DATA, NO_LIMIT};

/// Seeded maps of unknown registers.
const MAPS: usize = 400;
/// What they are mixed with.
const MIX: u64 = 0x9E37_79B9_7F4A_7C15;

/// Each register's bits that settings fix: those that are the same over zeros as
/// over ones.
fn fixed(s: &[i32; SETTINGS]) -> [u8; REGISTERS] {
    let (zeros, ones) = (settled(s, 0x00), settled(s, 0xFF));
    std::array::from_fn(|register| !(zeros[register] ^ ones[register]))
}

/// The refusal and field of planning over a board.
fn refused(image: &[u8], known: u64, s: &[i32], room: usize) -> (u32, u32) {
    let answer = plan(image, known, s, &mut [0; ROOM][..room]);
    (answer.refusal, answer.field)
}

/// One register unknown, on a board that has what is wanted: it is written, or
/// 11, or nothing is.
#[test]
fn each_register_unknown() {
    for s in three(house()) {
        let image = settled(&s, 0x5A);
        for (register, bits) in fixed(&s).into_iter().enumerate() {
            let known = ALL_KNOWN & !(1 << register);
            let mut bytes = [0; ROOM];
            let answer = plan(&image, known, &s, &mut bytes);
            let map = 1 << register;
            let written = match bits {
                0x00 => 0,
                0xFF if map & WORD_MAP != 0 => WORD_MAP,
                0xFF => map,
                _ => {
                    let at = (answer.refusal, answer.field);
                    assert_eq!(at, (11, lowest_field(register)), "{register:02X}");
                    continue;
                }
            };
            let plan = &bytes[..answer.length as usize];
            let touched = play(&mut image.clone(), 0, OWN, OWN, plan).known;
            assert_eq!((answer.refusal, touched), (0, written), "{register:02X}");
        }
    }
}

/// The four that can be fixed in part, under off and not.
#[test]
fn fixed_in_part() {
    let [off, cgms, wss] = three(house());
    let of = |s: &[i32; SETTINGS], unknown: &[u32]| {
        let known = unknown.iter().fold(ALL_KNOWN, |map, r| map & !(1 << r));
        refused(&settled(s, 0), known, s, ROOM)
    };
    for s in [&off, &cgms, &wss] {
        assert_eq!(of(s, &[0x00]), (11, 1));
        assert_eq!(of(s, &[0x02]), (11, 2));
        assert_eq!(of(s, &[0x01]), (11, 3));
        // The lowest field, not the lowest register.
        assert_eq!(of(s, &[0x01, 0x02]), (11, 2));
        assert_eq!(of(s, &[0x00, 0x01, 0x02, 0x19]), (11, 1));
        assert_eq!(of(s, &[0x01, 0x19]), (11, 3));
        assert_eq!(of(s, &[0x1A]), (0, 0));
        assert_eq!(of(s, &[0x1B]), (0, 0));
    }
    assert_eq!(of(&off, &[0x19]), (11, 11));
    assert_eq!(of(&cgms, &[0x19]), (0, 0));
    assert_eq!(of(&wss, &[0x19]), (0, 0));
}

#[test]
fn order_of_the_checks() {
    let image = settled(&house(), 0);
    let last = with(house(), &[(at::CURVE_B + at::CURVE_Q, 4)]);
    // After the fields, before 10.
    assert_eq!(refused(&image, 0, &last, ROOM), (3, 27));
    assert_eq!(refused(&image, 0, &house(), 0), (11, 1));
    assert_eq!(
        refused(&image, ALL_KNOWN & !(1 << 0x05), &house(), 0),
        (10, 0)
    );
    assert_eq!(refused(&image[1..], 0, &house(), ROOM), (1, 0));
    assert_eq!(refused(&image, 0, &house()[1..], ROOM), (3, 0));
    let other = plain::plan(&image, 0, &house(), OWN + 1, NO_LIMIT, &mut []);
    assert_eq!(other.refusal, 2);
    // Flags past the last register are no register's.
    assert_eq!(refused(&image, PAST, &house(), ROOM), (11, 1));
    assert_eq!(refused(&image, PAST | ALL_KNOWN, &house(), 1), (0, 0));
}

/// Gaps over 03 and 04, between 02 and 05, and over 1C, between 1B and 1D.
#[test]
fn unknown_in_a_gap() {
    let [off, cgms, _] = three(house());
    let cost = |s: &[i32; SETTINGS], wrong: &[(usize, u8)], unknown: u64| {
        let mut image = settled(s, 0);
        wrong
            .iter()
            .for_each(|&(register, bits)| image[register] ^= bits);
        let answer = plan(&image, ALL_KNOWN & !unknown, s, &mut [0; ROOM]);
        (answer.refusal, answer.transactions, answer.bus_bytes)
    };
    let ends: [(usize, u8); 2] = [(0x02, 0x08), (0x05, 0x01)];
    assert_eq!(cost(&off, &ends, 0), (0, 1, 6));
    assert_eq!(cost(&off, &ends, 1 << 0x03), (0, 2, 6));
    assert_eq!(cost(&off, &ends, 1 << 0x04), (0, 2, 6));
    assert_eq!(cost(&off, &ends, 0b11 << 0x03), (0, 2, 6));
    // 05 is needed because it is unknown.
    assert_eq!(cost(&off, &ends[..1], 1 << 0x05), (0, 1, 6));
    assert_eq!(cost(&off, &ends[..1], 0b101 << 0x03), (0, 2, 6));
    let beside: [(usize, u8); 2] = [(0x1B, 0x01), (0x1D, 0x01)];
    assert_eq!(cost(&cgms, &beside, 0), (0, 1, 5));
    assert_eq!(cost(&cgms, &beside, 1 << 0x1C), (0, 2, 6));
    assert_eq!(cost(&cgms, &[], 0b1110 << 0x1A), (0, 2, 6));
}

/// A chip after a packed plan, transaction by transaction.
fn sent(start: [u8; REGISTERS], known: u64, plan: &[u8]) -> Chip<REGISTERS> {
    let mut chip = Chip::fresh(OWN as u8, start, known);
    let mut data = [0; MOST_DATA];
    for index in 0.. {
        let next = transaction(plan, index, &mut data);
        if next.refusal != 0 {
            break;
        }
        let data = &data[..next.count as usize];
        assert!(write(&mut chip, OWN, next.subaddress as usize, data));
    }
    chip
}

/// Playing doesn't judge what is known.
#[test]
fn any_register_may_be_played() {
    for register in [0x00, 0x03, 0x18, 0x1A, 0x1C, 0x35] {
        let plan = packed(&[(register, &[0xA5])]);
        for known in [0, PAST, 1 << 0x20] {
            let answer = play(&mut [0; REGISTERS], known, OWN, OWN, &plan);
            assert_eq!((answer.refusal, answer.known), (0, known | 1 << register));
            let apart = play(&mut [0; REGISTERS], known, OWN + 2, OWN, &plan);
            assert_eq!((apart.refusal, apart.known), (0, known));
            let refused = play(&mut [0; REGISTERS], known, OWN, OWN, &plan[1..]);
            assert_eq!((refused.refusal, refused.known), (9, known));
        }
    }
}

/// Seeded numbers.
fn seeded(count: usize) -> impl Iterator<Item = u64> {
    let next = |state: &u64| {
        let mut bits = *state;
        bits ^= bits << 13;
        bits ^= bits >> 7;
        Some(bits ^ bits << 17)
    };
    let states = std::iter::successors(Some(MIX), next);
    states.map(|bits| bits.wrapping_mul(MIX)).take(count)
}

/// Sends a plan to a chip and plays it: both end as is wanted in every register
/// that is known or needed, which are then known, and touch no other.
fn ends_as_wanted(s: &[i32; SETTINGS], start: [u8; REGISTERS], known: u64, plan: &[u8]) {
    let (fixed, zeros) = (fixed(s), settled(s, 0x00));
    let whole = (0..REGISTERS).filter(|&r| fixed[r] == 0xFF);
    let compared = whole.fold(known, |map, r| map | 1 << r);
    let wanted: [u8; REGISTERS] = std::array::from_fn(|r| {
        let is_compared = compared >> r & 1 == 1;
        let bits = if is_compared { fixed[r] } else { 0 };
        zeros[r] & bits | start[r] & !bits
    });
    let chip = sent(start, known, plan);
    assert_eq!((chip.registers, chip.known), (wanted, compared));
    let mut played = start;
    let answer = play(&mut played, known, OWN, OWN, plan);
    assert_eq!((answer.refusal, answer.acknowledged), (0, 1));
    assert_eq!((played, answer.known), (wanted, compared));
}

/// Whatever the unknown registers hold, the plan is the same, and does the same.
#[test]
fn whatever_the_unknown_registers_hold() {
    let mut accepted = 0;
    for (map, bits) in seeded(MAPS).zip(seeded(2 * MAPS).skip(MAPS)) {
        // Mostly known, and 00 to 02 among them; one in sixteen is any map.
        let known = (map | bits | 0b111) & (ALL_KNOWN | bits & PAST);
        let known = if bits >> 60 == 0 { map } else { known };
        let s = three(house())[(bits % 3) as usize];
        let found: [u8; REGISTERS] = std::array::from_fn(|r| (bits >> (r % 57)) as u8);
        let mut first = [0xEE; ROOM];
        let answer = plan(&found, known, &s, &mut first);
        for other in [0x00, 0x01, 0x80, 0xFF] {
            let unknown = |r: usize| if known >> r & 1 == 1 { 0 } else { other };
            let held = std::array::from_fn(|r| found[r] ^ unknown(r));
            let mut again = [0xEE; ROOM];
            assert_eq!(plan(&held, known, &s, &mut again), answer);
            assert_eq!(again, first);
            if answer.refusal == 0 {
                ends_as_wanted(&s, held, known, &first[..answer.length as usize]);
            }
        }
        accepted += (answer.refusal == 0) as usize;
    }
    assert!(2 * accepted > MAPS, "{accepted} accepted");
}
