//! Playing on the ADV7195 against document 02's words, event by event on the bus.

#[path = "common/mod.rs"]
mod bus;

use bus::{packed, write};
use plain::progressive::registers::REGISTERS;
use plain::progressive::{fresh, play, transaction, Image};
use plain::MOST_DATA;

/// The chip's own address.
const OWN: u32 = 0x54;
/// Seeded lists, and what their seeds are mixed with.
const SEEDS: u64 = 200_000;
const MIX: u64 = 0x9E37_79B9_7F4A_7C15;
/// First registers and bytes of seeded lists: around 03, 09 and what takes no data.
const STARTS: [usize; 16] = [0, 1, 2, 3, 3, 3, 3, 8, 9, 9, 9, 9, 0x0A, 0x10, 0x20, 0x27];
const BYTES: [u8; 6] = [0x3E, 0x3E, 0x3E, 0x40, 0x38, 0x00];

/// Transactions: a first register and data.
type List<'a> = [(usize, &'a [u8])];

/// What a list touches in one transaction, with the bytes.
fn byte_for(register: usize, (start, data): (usize, &[u8])) -> Option<u8> {
    data.get(register.checked_sub(start)?).copied()
}

/// Whether interpolation is on.
fn interpolates(image: &Image) -> bool {
    image[0x03] & 0x40 != 0
}

/// The image after the events of a list, and whether every byte was acknowledged.
fn after(image: &Image, used: u32, list: &List) -> (Image, bool) {
    let mut chip = fresh(OWN as u8, *image);
    let mut all = true;
    for (start, data) in list {
        all &= write(&mut chip, used, *start, data);
    }
    (chip.registers, all)
}

/// Whether a list keeps rule 1: some data in each transaction, none outside 00 to 09 and 10 to 27.
fn keeps_rule(list: &List) -> bool {
    list.iter().all(|(start, data)| {
        let mut touched = *start..start + data.len();
        !data.is_empty() && touched.all(|register| matches!(register, 0..=0x09 | 0x10..=0x27))
    })
}

/// Whether before each transaction that flips MR36 an earlier one has written 3E to 09, and 09 is untouched since.
fn keeps_order(image: &Image, list: &List) -> bool {
    (0..list.len()).all(|flip| {
        let before = after(image, OWN, &list[..flip]).0;
        let now = after(image, OWN, &list[..=flip]).0;
        let nine = |place: usize| byte_for(0x09, list[place]);
        let prepares = |place| {
            nine(place) == Some(0x3E) && (place + 1..flip).all(|place| nine(place).is_none())
        };
        interpolates(&before) == interpolates(&now) || (0..flip).any(prepares)
    })
}

/// Plays a list and compares with the events; gives the refusal, which is 9 exactly where a rule or the order is broken.
fn both(image: &Image, list: &List) -> u32 {
    let sound = keeps_rule(list) && keeps_order(image, list);
    for used in [OWN, OWN + 2] {
        let mut played = *image;
        let answer = play(&mut played, used, OWN, &packed(list));
        let expected = if sound {
            after(image, used, list)
        } else {
            (*image, false)
        };
        assert_eq!((played, answer.acknowledged == 1), expected, "{list:02X?}");
        assert_eq!(
            (answer.refusal, answer.field),
            (if sound { 0 } else { 9 }, 0),
            "{list:02X?}"
        );
    }
    if sound {
        0
    } else {
        9
    }
}

#[test]
fn orders_and_overlaps() {
    let image = [0; REGISTERS];
    assert_eq!(both(&image, &[]), 0);
    assert_eq!(both(&image, &[(0x20, &[1]), (0x1F, &[2])]), 0);
    assert_eq!(
        both(&image, &[(0x1F, &[1, 2]), (0x20, &[3]), (0x20, &[4])]),
        0
    );
    assert_eq!(both(&image, &[(0x00, &[0; 10]), (0x10, &[5; 24])]), 0);
    // Empty, reserved registers, past the end.
    assert_eq!(both(&image, &[(0x20, &[])]), 9);
    assert_eq!(both(&image, &[(0x0A, &[1])]), 9);
    assert_eq!(both(&image, &[(0x0F, &[1, 2])]), 9);
    assert_eq!(both(&image, &[(0x09, &[1, 2])]), 9);
    assert_eq!(both(&image, &[(0x00, &[0; 40])]), 9);
    assert_eq!(both(&image, &[(0x27, &[1, 2])]), 9);
    assert_eq!(both(&image, &[(0x28, &[1])]), 9);
    assert_eq!(both(&image, &[(0x3F, &[1])]), 9);
}

#[test]
fn before_interpolation() {
    let mut image = [0; REGISTERS];
    for held in [0x00, 0x3E] {
        image[0x09] = held;
        let flip: (usize, &[u8]) = (0x03, &[0x40]);
        let back: (usize, &[u8]) = (0x03, &[0x00]);
        let prepare: (usize, &[u8]) = (0x09, &[0x3E]);
        let other: (usize, &[u8]) = (0x09, &[0x3F]);
        let itself: (usize, &[u8]) = (0x03, &[0x40, 0, 0, 0, 0, 0, 0x3E]);
        assert_eq!(both(&image, &[flip]), 9);
        assert_eq!(both(&image, &[back]), 0);
        assert_eq!(both(&image, &[prepare, flip]), 0);
        assert_eq!(both(&image, &[flip, prepare]), 9);
        assert_eq!(both(&image, &[itself]), 9);
        assert_eq!(both(&image, &[prepare, itself]), 0);
        assert_eq!(both(&image, &[prepare, other, flip]), 9);
        assert_eq!(both(&image, &[prepare, other, prepare, flip]), 0);
        assert_eq!(both(&image, &[prepare, prepare, flip]), 0);
        // What is flipped twice is judged twice, by what 03 then holds.
        assert_eq!(both(&image, &[prepare, flip, back, flip]), 0);
        assert_eq!(both(&image, &[prepare, flip, other, back]), 9);
        assert_eq!(both(&image, &[prepare, flip, other, flip]), 0);
        // A flipping transaction that goes on to write 09.
        assert_eq!(
            both(&image, &[prepare, (0x02, &[0, 0x40, 0, 0, 0, 0, 0, 0xA5])]),
            0
        );
        assert_eq!(
            both(
                &image,
                &[prepare, (0x03, &[0x40, 0, 0, 0, 0, 0, 0xA5]), back]
            ),
            9
        );
    }
}

#[test]
fn seeded() {
    let (mut sound, mut flips) = (0, 0);
    for seed in 0..SEEDS {
        let mut bits = (seed + 1).wrapping_mul(MIX);
        let mut below = |end: usize| {
            bits ^= bits >> 29;
            bits = bits.wrapping_mul(MIX);
            (bits >> 40) as usize % end
        };
        let mut image = [0; REGISTERS];
        image[0x03] = BYTES[below(BYTES.len())];
        image[0x09] = BYTES[below(BYTES.len())];
        let mut list = Vec::new();
        for _ in 0..below(6) {
            let start = STARTS[below(STARTS.len())];
            let count = if below(4) == 0 { 1 + below(9) } else { 1 };
            let data: Vec<u8> = (0..count).map(|_| BYTES[below(BYTES.len())]).collect();
            list.push((start, data));
        }
        let list: Vec<(usize, &[u8])> = list
            .iter()
            .map(|(start, data)| (*start, &data[..]))
            .collect();
        if both(&image, &list) == 0 {
            sound += 1;
            flips += u64::from(interpolates(&image) != interpolates(&after(&image, OWN, &list).0));
        }
    }
    // Many are played, and many of those flip.
    assert!(sound > SEEDS / 3 && flips > SEEDS / 100, "{sound} {flips}");
}

#[test]
fn addresses_and_lengths() {
    let plan = packed(&[(0x20, &[7])]);
    let of = |length: usize, used: u32, own: u32, plan: &[u8]| {
        let mut image = vec![0; length];
        let answer = play(&mut image, used, own, plan);
        assert_eq!(
            image.iter().any(|&byte| byte != 0),
            answer.acknowledged == 1
        );
        (answer.refusal, answer.field)
    };
    assert_eq!(of(40, OWN, OWN, &plan), (0, 0));
    for length in [0, 39, 41, 54] {
        assert_eq!(of(length, 1, 1, &[]), (1, 0));
    }
    for (used, own) in [
        (OWN + 1, OWN),
        (OWN, OWN + 1),
        (256, OWN),
        (OWN, 256),
        (u32::MAX - 1, OWN),
    ] {
        assert_eq!(of(40, used, own, &[]), (2, 0));
    }
    // Cut, extended, filled with a one.
    for bytes in [
        &plan[..3],
        &[&plan[..], &[0]].concat(),
        &[plan[0], plan[1], plan[2], plan[3] | 1],
        &[],
    ] {
        assert_eq!(of(40, OWN, OWN, bytes), (9, 0));
    }
    // No transaction: nothing isn't acknowledged.
    assert_eq!(
        play(&mut [0; REGISTERS], OWN + 2, OWN, &[0x00]).acknowledged,
        1
    );
}

#[test]
fn transactions() {
    let long = [0xA5; MOST_DATA];
    // Descending, overlapping, reserved, past the end: the bus rules aren't judged.
    let list: [(usize, &[u8]); 5] = [
        (0x20, &[1, 2]),
        (0x1F, &[3, 4]),
        (0x0A, &[5]),
        (0x0A, &[6]),
        (0x3F, &long),
    ];
    let plan = packed(&list);
    for (index, (start, data)) in list.iter().enumerate() {
        let mut lent = [0; MOST_DATA];
        let answer = transaction(&plan, index as u32, &mut lent);
        assert_eq!(
            (answer.refusal, answer.subaddress, answer.count),
            (0, *start as u32, data.len() as u32)
        );
        assert_eq!(lent[..data.len()], **data);
    }
    let refused = |plan: &[u8], index, room| transaction(plan, index, &mut vec![0; room]).refusal;
    assert_eq!(refused(&plan, 5, MOST_DATA), 3);
    assert_eq!(refused(&plan, 0, 1), 10);
    assert_eq!(refused(&packed(&[(0x20, &[])]), 0, MOST_DATA), 9);
    assert_eq!(refused(&plan[..plan.len() - 1], 0, MOST_DATA), 9);
}
