//! The ADV7195's plans against the exact search: what they cost, that they come first, and their data.
//!
//! On the low block, 00 to 09: every set of needed registers, MR36 flipped or not beside 03's other bits, and 09
//! found and wanted 3E, another byte or two others; lists of any bytes to every register. With 10 to 14 beside it, over
//! the reserved gap: the same with every set of those too; lists of any bytes to 03 and 09, wanted ones to the others.

#[path = "common/progressive.rs"]
mod common;

use common::{sent, settings_of, OWN, ROOM};
use plain::progressive::needs::{every, Searches};
use plain::progressive::{plan, Image};
use plain::search::Cost;

/// Planning gives what the search finds, and its data are the only ones. How many cases there were.
fn least(high: usize, any_data: bool) -> usize {
    let searches = Searches::new(high, any_data);
    every(high)
        .map(|(found, wanted)| one(&searches, &found, &wanted))
        .count()
}

/// One case.
fn one(searches: &Searches, found: &Image, wanted: &Image) {
    let search = searches.of(wanted);
    let mut bytes = [0; ROOM];
    let answer = plan(found, &settings_of(wanted), OWN, &mut bytes);
    assert_eq!((answer.refusal, answer.field), (0, 0));
    let cost = Cost {
        bytes: answer.bus_bytes,
        transactions: answer.transactions,
    };
    let list = sent(&bytes[..answer.length as usize]);
    let list = list
        .iter()
        .map(|(start, data)| search.sent(wanted, *start, data));
    let planned = (cost, vec![list.collect::<Vec<_>>()]);
    assert_eq!(
        search.first(found, wanted),
        planned,
        "{found:02X?} {wanted:02X?}"
    );
}

#[test]
fn low_block_with_any_data() {
    assert_eq!(least(0, true), 5120);
}

#[test]
fn over_the_reserved_registers() {
    assert_eq!(least(5, false), 163_840);
}
