//! Lists of transactions for the ADV7195 that no planner would make.

use crate::damage;
use crate::random::Random;
use plain::progressive::registers::{MODE_3, MODE_6, PREPARING};
use plain::progressive::transaction;
use plain::MOST_DATA;

/// Transactions: a first register, and data.
pub type List = Vec<(u32, Vec<u8>)>;

/// The most transactions of a list of another make.
const MOST_TRANSACTIONS: u64 = 7;
/// One in so many transactions has any count of data.
const WIDE: u64 = 12;
/// Subaddresses around 03, 09, the reserved registers and the end.
const CORNERS: [u32; 14] = [
    0x00, 0x02, 0x03, 0x03, 0x03, 0x08, 0x09, 0x09, 0x09, 0x0A, 0x0F, 0x10, 0x27, 0x28,
];
/// Bytes that change interpolation or prepare it.
const BYTES: [u8; 6] = [0x3E, 0x3E, 0x78, 0x38, 0x40, 0x00];

/// A packed plan's list.
pub fn listed(plan: &[u8]) -> List {
    let mut list = List::new();
    loop {
        let mut data = [0; MOST_DATA];
        let answer = transaction(plan, list.len() as u32, &mut data);
        if answer.refusal != 0 {
            return list;
        }
        list.push((answer.subaddress, data[..answer.count as usize].to_vec()));
    }
}

/// A list packed.
pub fn packed(list: &[(u32, Vec<u8>)]) -> Vec<u8> {
    let spans: Vec<(u32, u32)> = list
        .iter()
        .map(|(start, data)| (*start, data.len() as u32))
        .collect();
    let mut data = list.iter().flat_map(|(_, data)| data.iter().copied());
    damage::packed(&spans, || data.next().expect("a byte for each"))
}

/// A list of another make, in any order: often one that is sound.
pub fn foreign(random: &mut Random) -> List {
    let mut list = List::new();
    for _ in 0..random.below(MOST_TRANSACTIONS) {
        let start = match random.below(3) {
            0 => random.below(0x29) as u32,
            _ => random.one_of(&CORNERS),
        };
        let count = match random.below(4) {
            0 if random.once_in(WIDE) => random.below(MOST_DATA as u64 / 2),
            0 => 1 + random.below(8),
            _ => 1,
        };
        let data = (0..count).map(|_| byte(random)).collect();
        list.push((start, data));
    }
    list
}

/// Any byte, or one that matters.
fn byte(random: &mut Random) -> u8 {
    match random.flag() {
        true => random.one_of(&BYTES),
        false => random.byte(),
    }
}

/// A list of ours with its order broken or kept: without its first transaction, with another byte than 3E, with two
/// transactions exchanged, one sent twice, or 09 or 03 written somewhere.
pub fn reordered(random: &mut Random, list: &mut List) {
    let place = random.below(list.len() as u64 + 1) as usize;
    match (random.below(5), list.len()) {
        (0, 1..) => {
            list.remove(0);
        }
        (1, 1..) => {
            let last = list[0].1.last_mut().expect("data in each");
            *last = byte(random);
        }
        (2, count @ 1..) => list.swap(place % count, random.below(count as u64) as usize),
        (3, count @ 1..) => {
            let again = list[random.below(count as u64) as usize].clone();
            list.insert(place, again);
        }
        _ => {
            let start = random.one_of(&[MODE_3, MODE_6, MODE_6]) as u32;
            let data = random.one_of(&[PREPARING, PREPARING, 0x78, 0x38]);
            list.insert(place, (start, vec![data]));
        }
    }
}
