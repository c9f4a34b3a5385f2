//! Playing against the bus rules, event by event.

mod common;

use common::{packed, write};
use plain::chip::Chip;
use plain::registers::REGISTERS;
use plain::{play, transaction, ALL_KNOWN, MOST_DATA};

/// The chip's own address.
const OWN: u32 = 0x54;
/// Flags that are tried: none, all, every other register, those past the last.
const FLAGS: [u64; 4] = [0, ALL_KNOWN, 0x5555_5555_5555_5555, !ALL_KNOWN];

/// Plays a list both ways, with all flags that are tried; the answer is playing's
/// refusal.
fn both(list: &[(usize, &[u8])], used: u32) -> u32 {
    let [refusal, others @ ..] = FLAGS.map(|known| both_with(known, list, used));
    assert_eq!(others, [refusal; FLAGS.len() - 1]);
    refusal
}

/// The same with these flags.
fn both_with(known: u64, list: &[(usize, &[u8])], used: u32) -> u32 {
    let image: [u8; REGISTERS] = std::array::from_fn(|place| place as u8 ^ 0xA5);
    let mut chip = Chip::fresh(OWN as u8, image, known);
    let mut all = true;
    for (start, data) in list {
        all &= write(&mut chip, used, *start, data);
    }
    let mut played = image;
    let answer = play(&mut played, known, used, OWN, &packed(list));
    let after = (played, answer.known, answer.acknowledged);
    if answer.refusal == 0 {
        assert_eq!(after, (chip.registers, chip.known, all as u32));
    } else {
        assert_eq!(after, (image, known, 0));
    }
    answer.refusal
}

#[test]
fn lists() {
    for used in [OWN, OWN + 2] {
        assert_eq!(both(&[], used), 0);
        assert_eq!(both(&[(0x20, &[0x97])], used), 0);
        assert_eq!(both(&[(0x00, &[1, 2]), (0x02, &[3])], used), 0);
        assert_eq!(both(&[(0x0B, &[1, 2, 3, 4, 5, 6]), (0x35, &[9])], used), 0);
        // Empty, descending, overlapping, past the end.
        assert_eq!(both(&[(0x20, &[])], used), 9);
        assert_eq!(both(&[(0x20, &[1]), (0x1F, &[1])], used), 9);
        assert_eq!(both(&[(0x1F, &[1, 2]), (0x20, &[1])], used), 9);
        assert_eq!(both(&[(0x35, &[1, 2])], used), 9);
        assert_eq!(both(&[(0x36, &[1])], used), 9);
        // The read-only register, captions, part of the word.
        assert_eq!(both(&[(0x33, &[1, 2])], used), 9);
        assert_eq!(both(&[(0x10, &[1, 2])], used), 9);
        assert_eq!(both(&[(0x14, &[1, 2])], used), 9);
        assert_eq!(both(&[(0x0B, &[1, 2])], used), 9);
        assert_eq!(both(&[(0x0F, &[1, 2])], used), 9);
    }
}

#[test]
fn bytes_that_break_the_packing() {
    let mut image = [0; REGISTERS];
    let mut refusal = |plan: &[u8]| play(&mut image, ALL_KNOWN, OWN, OWN, plan).refusal;
    assert_eq!(refusal(&[0x06, 0x00, 0x65, 0xC0]), 0);
    assert_eq!(refusal(&[0x06, 0x00, 0x65]), 9);
    assert_eq!(refusal(&[0x06, 0x00, 0x65, 0xC0, 0x00]), 9);
    assert_eq!(refusal(&[0x06, 0x00, 0x65, 0xC1]), 9);
    assert_eq!(refusal(&[0x00]), 0);
    assert_eq!(refusal(&[0x01]), 9);
    assert_eq!(refusal(&[]), 9);
}

/// The answer and the data for one transaction, with all the room there can be.
fn asked(plan: &[u8], index: u32) -> (u32, u32, Vec<u8>) {
    let mut data = [0; MOST_DATA];
    let answer = transaction(plan, index, &mut data);
    let data = data[..answer.count as usize].to_vec();
    (answer.refusal, answer.subaddress, data)
}

#[test]
fn transactions() {
    let long = [0xA5; MOST_DATA];
    // Registers 11 and 34, and past the last one: the bus rules aren't judged.
    let list: [(usize, &[u8]); 4] = [(0x00, &[1, 2]), (0x11, &[3]), (0x34, &[4]), (0x3F, &long)];
    let plan = packed(&list);
    for (index, (start, data)) in list.iter().enumerate() {
        let wanted = (0, *start as u32, data.to_vec());
        assert_eq!(asked(&plan, index as u32), wanted);
    }
    for index in [4, 0x100, 0x1_0000, u32::MAX] {
        assert_eq!(asked(&plan, index), (3, 0, vec![]));
    }
    assert_eq!(transaction(&plan, 0, &mut [0; 1]).refusal, 10);
    assert_eq!(transaction(&plan, 4, &mut []).refusal, 3);
    assert_eq!(asked(&packed(&[]), 0).0, 3);
    // Empty, descending, overlapping; cut, extended, filled with a one.
    assert_eq!(asked(&packed(&[(0x20, &[])]), 0).0, 9);
    assert_eq!(asked(&packed(&[(0x20, &[1]), (0x1F, &[1])]), 0).0, 9);
    assert_eq!(asked(&packed(&[(0x1F, &[1, 2]), (0x20, &[1])]), 0).0, 9);
    assert_eq!(asked(&plan[..plan.len() - 1], 0).0, 9);
    assert_eq!(asked(&[0x06, 0x00, 0x65, 0xC0, 0x00], 0).0, 9);
    assert_eq!(asked(&[0x06, 0x00, 0x65, 0xC1], 1).0, 9);
    assert_eq!(asked(&[], 0).0, 9);
}
