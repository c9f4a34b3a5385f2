//! From a plan of the ADV7195 round to the settings again.

use super::calls::TRANSACTION;
use super::cases::Numbers;
use super::lists;
use crate::cases::{ADDRESS, BEFORE};
use crate::comparer::Comparer;
use crate::sending;
use plain::progressive::fields::SETTINGS;
use plain::progressive::registers::{INTERPOLATION_BIT, MODE_3, MODE_6, PREPARING};
use plain::progressive::Image;

/// What lent settings hold before.
const NUMBER_BEFORE: i32 = -77;

/// A plan just made, and what it was made from.
pub struct Made<'a> {
    /// The board's registers.
    pub image: &'a Image,
    /// The settings.
    pub settings: &'a Numbers,
    /// The packed plan.
    pub plan: &'a [u8],
    /// Bus bytes and transactions.
    pub cost: (u32, u32),
}

/// Plays a plan, reads the board, and plans what was read. Whether it changes interpolation.
pub fn round(comparer: &mut Comparer, made: &Made) -> bool {
    let (image, plan) = (made.image, made.plan);
    let (played, lent) = comparer.progressive_play(image, ADDRESS, ADDRESS, plan);
    let sound = (played.refusal, played.acknowledged) == (0, 1);
    comparer.expect(sound, || {
        format!("a plan isn't played: {image:02X?} {plan:02X?}")
    });
    let after: Image = lent.get().try_into().expect("an image's length");
    let sent = sending::sent(comparer, TRANSACTION, image, plan);
    comparer.expect(sent == (after, made.cost.0, made.cost.1), || {
        format!("sent otherwise than played: {image:02X?} {plan:02X?}")
    });
    again(comparer, &after, made.settings);
    let flips = (image[MODE_3] ^ after[MODE_3]) & INTERPOLATION_BIT != 0;
    if flips {
        unprepared(comparer, image, plan);
    }
    flips
}

/// Reads the board: it has the settings, and planning them again there is nothing to do.
fn again(comparer: &mut Comparer, image: &Image, settings: &Numbers) {
    let (read, numbers) = comparer.progressive_read(image, &[NUMBER_BEFORE; SETTINGS]);
    let same = read.refusal == 0 && numbers.get() == settings;
    comparer.expect(same, || {
        format!("a wanted image is read otherwise: {image:02X?} {settings:?}")
    });
    let (again, plan) = comparer.progressive_plan(image, settings, ADDRESS, &[BEFORE; 2]);
    let nothing = [again.length, again.transactions, again.bus_bytes] == [1, 0, 0];
    let nothing = nothing && again.refusal == 0 && plan.get() == [0x00, BEFORE];
    comparer.expect(nothing, || {
        format!("what was read isn't there: {image:02X?}")
    });
}

/// A plan that changes interpolation begins by writing 3E to 09, and isn't played without that, whatever the address.
fn unprepared(comparer: &mut Comparer, image: &Image, plan: &[u8]) {
    let mut list = lists::listed(plan);
    let nine = list.first_mut().and_then(|(start, data)| {
        let place = MODE_6.checked_sub(*start as usize)?;
        data.get_mut(place)
    });
    let prepares = nine.as_deref() == Some(&PREPARING);
    comparer.expect(prepares, || {
        format!("no 3E first: {image:02X?} {plan:02X?}")
    });
    let Some(nine) = nine else { return };
    *nine ^= 1;
    let other = lists::packed(&list);
    let missing = lists::packed(&list[1..]);
    for plan in [other, missing] {
        for used in [ADDRESS, ADDRESS + 2] {
            let (played, _) = comparer.progressive_play(image, used, ADDRESS, &plan);
            comparer.expect(played.refusal == 9, || {
                format!("played without 3E: {image:02X?} {plan:02X?}")
            });
        }
    }
}
