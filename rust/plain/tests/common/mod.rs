//! Lists of transactions, as events on the bus and packed.

use plain::chip::{Acknowledge, Chip, Event};

/// One write transaction: whether the chip acknowledges every byte.
pub fn write<const N: usize>(chip: &mut Chip<N>, address: u32, start: usize, data: &[u8]) -> bool {
    chip.step(Event::Start);
    let mut all = true;
    for byte in [&[address as u8, start as u8], data].concat() {
        let (_, acknowledge) = chip.step(Event::FromMaster(byte));
        all &= acknowledge == Acknowledge::Yes;
    }
    chip.step(Event::Stop);
    all
}

/// A packed plan, bit by bit.
pub fn packed(list: &[(usize, &[u8])]) -> Vec<u8> {
    let mut bits = format!("{:06b}", list.len());
    for (start, data) in list {
        bits += &format!("{:06b}{:06b}", start, data.len());
        data.iter().for_each(|byte| bits += &format!("{byte:08b}"));
    }
    while bits.len() % 8 != 0 {
        bits.push('0');
    }
    let byte = |at: usize| u8::from_str_radix(&bits[at..at + 8], 2).unwrap();
    (0..bits.len()).step_by(8).map(byte).collect()
}
