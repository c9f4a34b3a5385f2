//! The text that a plan of captions is shown by.

use crate::captions::{plan_captions, CAPTION_ROOM, PAIR};
use crate::listing::{listing, ADDRESS};

/// Characters of both pairs.
const BOTH: usize = 2 * PAIR;

/// What the bytes of an input are as captions: two are the ordinary pair, four
/// the extended pair and the ordinary one; another count is none. The text has
/// the transactions and the bus bytes, then a line for each transaction.
pub fn caption_listing(input: &[u8]) -> String {
    let characters: Vec<i32> = input.iter().map(|&byte| byte.into()).collect();
    let (extended, ordinary) = match input.len() {
        PAIR => characters.split_at(0),
        BOTH => characters.split_at(PAIR),
        _ => (&[][..], &[][..]),
    };
    let mut plan = [0; CAPTION_ROOM];
    let answer = plan_captions(extended, ordinary, ADDRESS, &mut plan);
    listing(answer, &plan, |_| String::new())
}
