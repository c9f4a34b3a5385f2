//! The calls of captions, made on both sides and compared.

use crate::both::{self, plan_answer};
use crate::comparer::{Comparer, GUARD_BYTE, GUARD_NUMBER};
use crate::lent::Lent;
use crate::tally::Entry;
use adv7194::ffi;
use plain::{CaptionsAnswer, PlanAnswer, PlayAnswer};

impl Comparer {
    /// Plans captions. `plan` is what the lent plan holds before.
    pub fn plan_captions(
        &mut self,
        extended: &[i32],
        ordinary: &[i32],
        address: u32,
        plan: &[u8],
    ) -> (PlanAnswer, Lent<u8>) {
        let given = (
            Lent::new(extended, GUARD_NUMBER),
            Lent::new(ordinary, GUARD_NUMBER),
        );
        let before = Lent::new(plan, GUARD_BYTE);
        let (mut one, mut other, mut lent) = (before, before, given);
        let answer = plain::plan_captions(extended, ordinary, address, one.lend());
        let proved = ffi::plan_captions(lent.0.lend(), lent.1.lend(), address, other.lend());
        let proved = plan_answer(proved);
        let show = |what: &str| {
            let given = format!("{extended:?} {ordinary:?} {address} room {}", plan.len());
            format!("plan_captions, {what}: {answer:?} {proved:?} for {given}")
        };
        self.expect(lent == given, || show("given memory"));
        let lent = (&before, &one, &other);
        self.planned(Entry::PlanCaptions, (answer, proved), lent, show);
        (answer, other)
    }

    /// Plays captions.
    pub fn play_captions(
        &mut self,
        image: &[u8],
        known: u64,
        used: u32,
        own: u32,
        plan: &[u8],
    ) -> (PlayAnswer, Lent<u8>) {
        self.play_by(both::PLAY_CAPTIONS, image, known, used, own, plan)
    }

    /// Plays by both players: no plan is taken by both. Gives the answer of the one for captions.
    pub fn play_both(
        &mut self,
        image: &[u8],
        known: u64,
        used: u32,
        own: u32,
        plan: &[u8],
    ) -> PlayAnswer {
        let (settings, _) = self.play(image, known, used, own, plan);
        let (captions, _) = self.play_captions(image, known, used, own, plan);
        let apart = settings.refusal != 0 || captions.refusal != 0;
        self.expect(apart, || format!("both players take {plan:02X?}"));
        captions
    }

    /// Reads captions.
    pub fn read_captions(&mut self, image: &[u8], known: u64, pair: u32) -> CaptionsAnswer {
        let given = Lent::new(image, GUARD_BYTE);
        let mut lent = given;
        let answer = plain::read_captions(image, known, pair);
        let proved = ffi::read_captions(lent.lend(), known, pair);
        let a = [answer.refusal, answer.field, answer.first, answer.second];
        let b = [proved.refusal, proved.field, proved.first, proved.second];
        let show = |what: &str| {
            let given = format!("{image:02X?} known {known:X} {pair}");
            format!("read_captions, {what}: {a:?} {b:?} for {given}")
        };
        self.count(Entry::ReadCaptions, answer.refusal, answer.field);
        self.expect(a == b, || show("answers"));
        self.expect(lent == given, || show("given memory"));
        if b[0] != 0 {
            self.expect(b[2..] == [0; 2], || show("numbers after a refusal"));
        }
        answer
    }
}
