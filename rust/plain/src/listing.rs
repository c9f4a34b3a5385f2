//! The text that what planning answers is shown by.

use crate::plan::PlanAnswer;
use crate::side_by_side::hex;
use crate::transaction::{transaction, MOST_DATA};

/// The boards' address.
pub(crate) const ADDRESS: u32 = 0x54;

/// The refusal; or the transactions and the bus bytes, then a line for each
/// transaction of the packed plan and, under it, what is said of each of its registers.
pub(crate) fn listing(answer: PlanAnswer, plan: &[u8], said: impl Fn(u32) -> String) -> String {
    if answer.refusal != 0 {
        return format!("REFUSED {} {}\n", answer.refusal, answer.field);
    }
    let mut text = format!("PLAN {} {}\n", answer.transactions, answer.bus_bytes);
    for index in 0..answer.transactions {
        let mut data = [0; MOST_DATA];
        let sent = transaction(&plan[..answer.length as usize], index, &mut data);
        let (start, count) = (sent.subaddress, sent.count);
        text += &format!("{start:02X} {}\n", hex(&data[..count as usize]));
        (start..start + count).for_each(|register| text += &said(register));
    }
    text
}
