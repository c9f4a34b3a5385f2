//! Planning with a limit on a transaction's data, against document 02's words.

#[path = "common/boards.rs"]
mod boards;

use boards::{settled, three, with, OWN, PAST, ROOM};
use plain::fields::{self as at, SETTINGS};
use plain::least;
use plain::registers::{span, REGISTERS};
use plain::{house, play, transaction, ALL_KNOWN, MOST_DATA, NO_LIMIT};

/// Limits that are judged one by one.
const LIMITS: std::ops::RangeInclusive<u32> = 0..=60;
/// Seeded maps for each limit.
const MAPS: u64 = 2000;
/// What they are mixed with.
const MIX: u64 = 0x9E37_79B9_7F4A_7C15;
/// The registers that hold a field.
const FIELDS: u64 =
    span(0x00, 3) | span(0x05, 1) | span(0x0C, 5) | span(0x19, 3) | span(0x1D, 0x34 - 0x1D);

/// The list's transactions.
fn list(needed: u64, limit: u32) -> Vec<(u32, u32)> {
    least::list(needed, ALL_KNOWN, limit).spans().collect()
}

/// The refusal and field of planning over a board whose every register is wrong,
/// with CGMS.
fn refused(limit: u32, room: usize) -> (u32, u32) {
    let answer = plain::plan(
        &[0xFF; REGISTERS],
        ALL_KNOWN,
        &three(house())[1],
        OWN,
        limit,
        &mut [0; ROOM][..room],
    );
    (answer.refusal, answer.field)
}

#[test]
fn ties() {
    // No local rule is right: neither the longest nor the shortest piece first.
    assert_eq!(
        list(1 << 0x19 | 1 << 0x1B | 1 << 0x1D, 4),
        [(0x19, 1), (0x1B, 3)]
    );
    assert_eq!(list(span(0x19, 6), 4), [(0x19, 2), (0x1B, 4)]);
    assert_eq!(list(span(0x19, 6), 5), [(0x19, 1), (0x1A, 5)]);
    assert_eq!(list(span(0x19, 9), 4), [(0x19, 1), (0x1A, 4), (0x1E, 4)]);
    // A gap of two is free to cut, a gap of one a byte cheaper than none.
    assert_eq!(list(1 << 0x1D | 1 << 0x20, 4), [(0x1D, 4)]);
    assert_eq!(list(0b11 << 0x1D | 1 << 0x21, 4), [(0x1D, 2), (0x21, 1)]);
    assert_eq!(list(0b11 << 0x1D | 1 << 0x21, 5), [(0x1D, 5)]);
    assert_eq!(list(0b110111 << 0x1D, 5), [(0x1D, 3), (0x21, 2)]);
}

#[test]
fn the_word_is_whole() {
    let word = 1 << 0x0D;
    assert_eq!(list(word, 4), [(0x0C, 4)]);
    assert_eq!(list(word | 1 << 0x10, 4), [(0x0C, 4), (0x10, 1)]);
    assert_eq!(list(word | 1 << 0x10, 5), [(0x0C, 5)]);
    assert_eq!(list(word | 1 << 0x0B, 4), [(0x0B, 1), (0x0C, 4)]);
    let around = word | 1 << 0x0B | 1 << 0x10;
    assert_eq!(list(around, 4), [(0x0B, 1), (0x0C, 4), (0x10, 1)]);
    assert_eq!(list(around, 5), [(0x0B, 1), (0x0C, 5)]);
    assert_eq!(list(around, 6), [(0x0B, 6)]);
}

/// With no limit, the runs; with any, no transaction longer than it, the needed
/// registers and none but bridges beside them.
#[test]
fn within_the_limit() {
    for seed in 0..MAPS {
        let bits = seed.wrapping_mul(MIX);
        let needed = [bits, bits | bits << 7, bits & bits << 9][(seed % 3) as usize] & FIELDS;
        let runs = least::list(needed, ALL_KNOWN, NO_LIMIT);
        assert_eq!(runs.lasts, runs.written & !(runs.written >> 1));
        let mut bytes = u32::MAX;
        for limit in LIMITS.filter(|limit| (4..=54).contains(limit)) {
            let list = least::list(needed, ALL_KNOWN, limit);
            assert!(list.spans().all(|(_, count)| count <= limit));
            assert_eq!(needed & !list.written, 0);
            assert_eq!(list.written & !runs.written, 0);
            // A higher limit never costs more.
            let now = least::bus_bytes(list.transactions(), list.data());
            assert!(now <= bytes, "{needed:x} at {limit}");
            bytes = now;
        }
    }
}

#[test]
fn limits_refused() {
    for limit in LIMITS.chain([255, 256, 260, 1 << 16 | 10, 1 << 31, u32::MAX]) {
        let right = (4..=54).contains(&limit);
        let expected = if right { (0, 0) } else { (3, 0) };
        assert_eq!(refused(limit, ROOM), expected, "{limit}");
    }
}

/// After 1 and 2, before the fields, 11 and 10.
#[test]
fn order_of_the_checks() {
    let image = settled(&house(), 0);
    let of = |image: &[u8], known: u64, s: &[i32], address: u32, limit: u32| {
        let answer = plain::plan(image, known, s, address, limit, &mut []);
        (answer.refusal, answer.field)
    };
    let wrong = with(house(), &[(at::STANDARD, 2)]);
    for limit in [3, 55] {
        assert_eq!(of(&image[1..], ALL_KNOWN, &house(), OWN, limit), (1, 0));
        assert_eq!(of(&image, ALL_KNOWN, &house(), OWN + 1, limit), (2, 0));
        assert_eq!(of(&image, ALL_KNOWN, &wrong, OWN, limit), (3, 0));
        assert_eq!(of(&image, PAST, &house(), OWN, limit), (3, 0));
        assert_eq!(of(&image, ALL_KNOWN, &house(), OWN, limit), (3, 0));
    }
    for limit in [4, 54] {
        assert_eq!(of(&image, ALL_KNOWN, &wrong, OWN, limit), (4, 1));
        assert_eq!(of(&image, PAST, &house(), OWN, limit), (11, 1));
        assert_eq!(of(&image, ALL_KNOWN, &house(), OWN, limit), (10, 0));
    }
}

/// The longest packed plans: 53 bytes with the least limit, 44 with none.
#[test]
fn rooms() {
    for (limit, longest) in [(4, 53), (NO_LIMIT, 44)] {
        assert_eq!(refused(limit, longest - 1), (10, 0));
        assert_eq!(refused(limit, longest), (0, 0));
    }
}

/// Played, a plan with any limit ends as the one without, in transactions that
/// keep it.
#[test]
fn played() {
    for s in three(house()) {
        for ground in [0x00, 0x5A, 0xFF] {
            for limit in 4..=NO_LIMIT {
                played_with(&s, ground, limit);
            }
        }
    }
}

/// One plan.
fn played_with(s: &[i32; SETTINGS], ground: u8, limit: u32) {
    let mut image = [ground; REGISTERS];
    let mut bytes = [0; ROOM];
    let answer = plain::plan(&image, ALL_KNOWN, s, OWN, limit, &mut bytes);
    let plan = &bytes[..answer.length as usize];
    let played = play(&mut image, ALL_KNOWN, OWN, OWN, plan);
    assert_eq!(
        (answer.refusal, played.refusal, played.acknowledged),
        (0, 0, 1)
    );
    assert_eq!(image, settled(s, ground));
    for index in 0..answer.transactions {
        assert!(transaction(plan, index, &mut [0; MOST_DATA]).count <= limit);
    }
}
