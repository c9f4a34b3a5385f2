//! Asking why, on both sides and compared, and with what planning answers.

use crate::cases::{ADDRESS, BEFORE, ROOM};
use crate::comparer::{Comparer, GUARD_BYTE, GUARD_NUMBER};
use crate::lent::Lent;
use crate::sending;
use crate::tally::Entry;
use adv7194::ffi;
use plain::{refusal, PlanAnswer, WhyAnswer};

/// The last number asked for one by one.
const LAST: u32 = 60;
/// A register whose number is asked for with each higher bit set.
const REGISTER: u32 = 0x20;
/// The lowest bit above the registers' numbers.
const PAST: u32 = 6;

/// What is asked about: a board, settings and a limit.
#[derive(Clone, Copy)]
pub struct Asked<'a> {
    /// The board's registers.
    pub image: &'a [u8],
    /// Their flags.
    pub known: u64,
    /// The settings.
    pub settings: &'a [i32],
    /// The limit.
    pub limit: u32,
}

impl Comparer {
    /// Asks why a register is sent.
    pub fn why(&mut self, asked: &Asked, subaddress: u32) -> WhyAnswer {
        let Asked {
            image,
            known,
            settings,
            limit,
        } = *asked;
        let given = (
            Lent::new(image, GUARD_BYTE),
            Lent::new(settings, GUARD_NUMBER),
        );
        let mut lent = given;
        let answer = plain::why(image, known, settings, limit, subaddress);
        let proved = ffi::why(lent.0.lend(), known, lent.1.lend(), limit, subaddress);
        let a = [answer.refusal, answer.field];
        let b = [proved.refusal, proved.field];
        let (reason, numbers) = (answer.reason, [answer.first, answer.second]);
        let (proved_reason, proved_numbers) = (proved.reason, [proved.first, proved.second]);
        let show = |what: &str| {
            let board = format!("{image:02X?} known {known:X}");
            let given = format!("{settings:?} limit {limit} register {subaddress:X}");
            format!("why, {what}: {answer:?} {proved:?} for {board} {given}")
        };
        self.count(Entry::Why, answer.refusal, answer.field);
        self.expect(a == b, || show("answers"));
        let same = reason == proved_reason && numbers == proved_numbers;
        self.expect(same, || show("reasons"));
        self.expect(lent == given, || show("given memory"));
        if proved.refusal != 0 {
            let zero = proved_reason == 0 && proved_numbers == [0; 2];
            self.expect(zero, || show("numbers after a refusal"));
        } else {
            let can = self.reasons.count(subaddress, proved_reason, proved.first);
            self.expect(can, || show("a reason that can't be"));
        }
        answer
    }

    /// Asks about registers, and holds what is answered to what planning answered, and to the
    /// list that it packed.
    pub fn why_planned(
        &mut self,
        asked: &Asked,
        (planned, plan): (PlanAnswer, &[u8]),
        registers: impl IntoIterator<Item = u32>,
    ) {
        let list = sending::listed(&plan[..planned.length as usize]);
        for register in registers {
            let answer = self.why(asked, register);
            let refused = (answer.refusal, answer.field);
            let right = match planned.refusal {
                // Not among the checks of asking why.
                refusal::ADDRESS | refusal::PLAN_ROOM => true,
                0 => {
                    let has =
                        |&(start, count): &(u32, u32)| (start..start + count).contains(&register);
                    refused == (0, 0) && (answer.reason != 0) == list.iter().any(has)
                }
                _ => refused == (planned.refusal, planned.field),
            };
            self.expect(right, || {
                let known = asked.known;
                format!("why {register:X} {answer:?}, but {planned:?} {plan:02X?} known {known:X}")
            });
        }
    }

    /// Plans, and asks about every register and numbers that are none.
    pub fn why_all(&mut self, asked: &Asked) {
        let Asked {
            image,
            known,
            settings,
            limit,
        } = *asked;
        let room = [BEFORE; ROOM];
        let (planned, lent) = self.plan(image, known, settings, ADDRESS, limit, &room);
        let wide = (PAST..u32::BITS).map(|place| REGISTER | 1 << place);
        let every = (0..=LAST).chain(wide).chain([u32::MAX]);
        self.why_planned(asked, (planned, lent.get()), every);
    }
}
