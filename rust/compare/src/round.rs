//! From a plan round to the settings again.

use crate::both::TRANSACTION;
use crate::cases::{Image, Numbers, ADDRESS, BEFORE, ROOM};
use crate::comparer::Comparer;
use crate::flags::FIELDS;
use crate::random::Random;
use crate::sending;
use plain::fields::{number, SETTINGS};
use plain::registers::REGISTERS;
use plain::search::{Cost, Window};
use plain::{least, order, refusal};

/// One in so many plans is compared with the search over the whole chip.
const SEARCHED: u64 = 16;
/// What lent settings hold before.
const NUMBER_BEFORE: i32 = -77;

/// A plan just made, and what it was made from.
pub struct Made<'a> {
    /// The board's registers.
    pub image: &'a Image,
    /// Their flags.
    pub known: u64,
    /// The settings.
    pub settings: &'a Numbers,
    /// The limit.
    pub limit: u32,
    /// The packed plan.
    pub plan: &'a [u8],
    /// Bus bytes and transactions.
    pub cost: (u32, u32),
}

/// A board after a plan.
struct After {
    image: Image,
    known: u64,
}

/// Plays a plan, reads the board, and plans what was read.
pub fn round(comparer: &mut Comparer, random: &mut Random, made: &Made) {
    let after = played(comparer, made);
    if made.known & FIELDS != FIELDS {
        whatever_is_unknown(comparer, random, made);
    }
    if random.once_in(SEARCHED) {
        searched(comparer, made, &after);
    }
    again(comparer, &after, made.limit);
}

/// Plays the plan, and sends it transaction by transaction.
fn played(comparer: &mut Comparer, made: &Made) -> After {
    let (image, plan) = (made.image, made.plan);
    let (played, lent) = comparer.play(image, made.known, ADDRESS, ADDRESS, plan);
    let sound = (played.refusal, played.acknowledged) == (0, 1);
    comparer.expect(sound, || {
        format!("a plan isn't played: {image:02X?} {plan:02X?}")
    });
    let after: Image = lent.get().try_into().expect("an image's length");
    let sent = sending::sent(comparer, TRANSACTION, image, plan);
    comparer.expect(sent == (after, made.cost.0, made.cost.1), || {
        format!("sent otherwise than played: {image:02X?} {plan:02X?}")
    });
    After {
        image: after,
        known: played.known,
    }
}

/// Plans with other bytes in the unknown registers: the plan is the same.
fn whatever_is_unknown(comparer: &mut Comparer, random: &mut Random, made: &Made) {
    let mut image = *made.image;
    for register in (0..REGISTERS).filter(|register| made.known >> register & 1 == 0) {
        image[register] = random.byte();
    }
    let room = [BEFORE; ROOM];
    let (known, limit) = (made.known, made.limit);
    let (answer, lent) = comparer.plan(&image, known, made.settings, ADDRESS, limit, &room);
    let cost = (answer.bus_bytes, answer.transactions);
    let same = cost == made.cost && lent.get().starts_with(made.plan);
    comparer.expect(same && answer.length as usize == made.plan.len(), || {
        let plan = made.plan;
        format!("another plan for other unknown bytes: {image:02X?} {answer:?} {plan:02X?}")
    });
}

/// Compares the plan with the search: what it costs, and which of the lists that cost that it is.
/// Of the unknown registers those are needed that are known after it, and only they may be touched.
fn searched(comparer: &mut Comparer, made: &Made, after: &After) {
    let changed = least::differing(made.image, &after.image) & made.known;
    let needed = changed | after.known & !made.known;
    let spans = Window::chip(made.known | needed, made.limit).spans();
    let first = order::first_of_least(needed, &spans);
    let (bytes, transactions) = made.cost;
    let cost = Cost {
        bytes,
        transactions,
    };
    let planned = Some((cost, sending::listed(made.plan)));
    comparer.expect(first == planned, || {
        let (known, limit) = (made.known, made.limit);
        format!("not first: {needed:X} known {known:X} limit {limit} {planned:?} {first:?}")
    });
}

/// Reads the board, and plans what was read with the same limit: nothing is to do. Only under off can a field's
/// register be left unknown.
fn again(comparer: &mut Comparer, after: &After, limit: u32) {
    let image = &after.image;
    let (read, numbers) = comparer.read(image, after.known, &[NUMBER_BEFORE; SETTINGS]);
    let expected = if after.known & FIELDS == FIELDS {
        (0, number::NONE)
    } else {
        (refusal::REGISTER_UNKNOWN, number::SIGNALLING)
    };
    comparer.expect((read.refusal, read.field) == expected, || {
        format!("a wanted image isn't read: {image:02X?}")
    });
    if read.refusal != 0 {
        return;
    }
    let room = [BEFORE; 2];
    let (again, plan) = comparer.plan(image, after.known, numbers.get(), ADDRESS, limit, &room);
    let nothing = (
        again.refusal,
        again.length,
        again.transactions,
        again.bus_bytes,
    ) == (0, 1, 0, 0);
    let nothing = nothing && plan.get() == [0x00, BEFORE];
    comparer.expect(nothing, || {
        format!("what was read isn't there: {image:02X?}")
    });
}
