//! The exact search over the ADV7195's low block and some registers above it.

use super::lists;
use crate::cases::{ADDRESS, BEFORE, ROOM};
use crate::comparer::Comparer;
use plain::progressive::fields::SETTINGS;
use plain::progressive::needs::{every, Searches};
use plain::progressive::{read, Image};
use plain::search::Cost;

/// How many registers from 10 on are searched beside 00 to 09, and whether any byte is sent to each.
const SEARCHED: [(usize, bool); 2] = [(0, true), (3, false)];

/// Every case that is searched: the archive's list is the first of the least ones, and its data are the only ones. How
/// many there were.
pub fn all(comparer: &mut Comparer) -> u64 {
    let mut cases = 0;
    for (high, any_data) in SEARCHED {
        let searches = Searches::new(high, any_data);
        for (found, wanted) in every(high) {
            one(comparer, &searches, &found, &wanted);
            cases += 1;
        }
    }
    cases
}

/// One case.
fn one(comparer: &mut Comparer, searches: &Searches, found: &Image, wanted: &Image) {
    let mut settings = [0; SETTINGS];
    read(wanted, &mut settings);
    let (answer, lent) = comparer.progressive_plan(found, &settings, ADDRESS, &[BEFORE; ROOM]);
    let cost = Cost {
        bytes: answer.bus_bytes,
        transactions: answer.transactions,
    };
    let search = searches.of(wanted);
    let list = lists::listed(&lent.get()[..answer.length as usize]);
    let sent = list
        .iter()
        .map(|(start, data)| search.sent(wanted, *start, data));
    let planned = (cost, vec![sent.collect::<Vec<_>>()]);
    let sound = answer.refusal == 0 && search.first(found, wanted) == planned;
    comparer.expect(sound, || {
        format!("archive, not first: {found:02X?} {wanted:02X?} {planned:?}")
    });
}
