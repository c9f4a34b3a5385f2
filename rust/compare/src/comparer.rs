//! One call, made on both sides and compared.

use crate::both::{self, Both};
use crate::lent::Lent;
use crate::reason_tally::ReasonTally;
use crate::tally::{Entry, Tally};
use adv7194::ffi;
use plain::{PlanAnswer, PlayAnswer, ReadAnswer, TransactionAnswer, ALL_KNOWN};

/// Guard bytes.
pub(crate) const GUARD_BYTE: u8 = 0xC3;
/// Guard numbers.
pub(crate) const GUARD_NUMBER: i32 = -0x3C5A_1234;
/// The most differences that are shown.
const MOST_SHOWN: u64 = 20;

/// Makes calls on both sides, and counts answers and differences.
#[derive(Default)]
pub struct Comparer {
    /// Answers by refusal and field.
    pub tally: Tally,
    /// Reasons by register.
    pub reasons: ReasonTally,
    /// Calls compared.
    pub calls: u64,
    /// Differences.
    pub differences: u64,
}

impl Comparer {
    /// Counts a difference unless `holds`, and shows the first ones.
    pub fn expect(&mut self, holds: bool, what: impl FnOnce() -> String) {
        if holds {
            return;
        }
        self.differences += 1;
        if self.differences <= MOST_SHOWN {
            println!("DIFFERENCE {}", what());
        }
    }

    /// Counts an answer that must be one that can occur.
    pub(crate) fn count(&mut self, entry: Entry, refusal: u32, field: u32) {
        self.calls += 1;
        let can = self.tally.count(entry, refusal, field);
        self.expect(can, || {
            format!("refusal {refusal} at field {field} can't be")
        });
    }

    /// Plans. `plan` is what the lent plan holds before.
    pub fn plan(
        &mut self,
        image: &[u8],
        known: u64,
        settings: &[i32],
        address: u32,
        limit: u32,
        plan: &[u8],
    ) -> (PlanAnswer, Lent<u8>) {
        self.plan_by(both::PLAN, (image, known), settings, (address, limit), plan)
    }

    /// Plans on a chip.
    pub(crate) fn plan_by(
        &mut self,
        planner: Both<both::Plan>,
        (image, known): (&[u8], u64),
        settings: &[i32],
        (address, limit): (u32, u32),
        plan: &[u8],
    ) -> (PlanAnswer, Lent<u8>) {
        let given = (
            Lent::new(image, GUARD_BYTE),
            Lent::new(settings, GUARD_NUMBER),
        );
        let before = Lent::new(plan, GUARD_BYTE);
        let (mut one, mut other, mut lent) = (before, before, given);
        let answer = (planner.plain)(image, known, settings, address, limit, one.lend());
        let (image_lent, settings_lent) = (lent.0.lend(), lent.1.lend());
        let proved = (planner.proved)(
            image_lent,
            known,
            settings_lent,
            address,
            limit,
            other.lend(),
        );
        let show = |what: &str| {
            let board = format!("{image:02X?} known {known:X}");
            let given = format!("{settings:?} {address} limit {limit} room {}", plan.len());
            let name = planner.entry.name();
            format!("{name}, {what}: {answer:?} {proved:?} for {board} {given}")
        };
        self.expect(lent == given, || show("given memory"));
        let plans = (&before, &one, &other);
        self.planned(planner.entry, (answer, proved), plans, show);
        (answer, other)
    }

    /// Compares what planning answered, and the lent plan before it and on both sides after it.
    pub(crate) fn planned(
        &mut self,
        entry: Entry,
        (answer, proved): (PlanAnswer, PlanAnswer),
        (before, one, other): (&Lent<u8>, &Lent<u8>, &Lent<u8>),
        show: impl Fn(&str) -> String,
    ) {
        self.count(entry, answer.refusal, answer.field);
        self.expect(answer == proved, || show("answers"));
        self.expect(one == other, || show("lent plan"));
        if proved.refusal != 0 {
            let zero = [proved.length, proved.transactions, proved.bus_bytes] == [0; 3];
            self.expect(other == before, || show("plan after a refusal"));
            self.expect(zero, || show("numbers after a refusal"));
        } else {
            let past = proved.length as usize..;
            let kept = other.get().get(past.clone()) == before.get().get(past);
            self.expect(kept, || show("past the plan"));
        }
    }

    /// Plays.
    pub fn play(
        &mut self,
        image: &[u8],
        known: u64,
        used: u32,
        own: u32,
        plan: &[u8],
    ) -> (PlayAnswer, Lent<u8>) {
        self.play_by(both::PLAY, image, known, used, own, plan)
    }

    /// Plays by a player.
    pub(crate) fn play_by(
        &mut self,
        player: Both<both::Play>,
        image: &[u8],
        known: u64,
        used: u32,
        own: u32,
        plan: &[u8],
    ) -> (PlayAnswer, Lent<u8>) {
        let given = Lent::new(plan, GUARD_BYTE);
        let before = Lent::new(image, GUARD_BYTE);
        let (mut one, mut other, mut lent) = (before, before, given);
        let answer = (player.plain)(one.lend(), known, used, own, plan);
        let proved = (player.proved)(other.lend(), known, used, own, lent.lend());
        let a = [answer.refusal, answer.field, answer.acknowledged];
        let b = [proved.refusal, proved.field, proved.acknowledged];
        let show = |what: &str| {
            let name = player.entry.name();
            let given = format!("{image:02X?} known {known:X} {used} {own} {plan:02X?}");
            let flags = (answer.known, proved.known);
            format!("{name}, {what}: {a:?} {b:?} {flags:X?} for {given}")
        };
        self.count(player.entry, answer.refusal, answer.field);
        self.expect(a == b, || show("answers"));
        self.expect(answer.known == proved.known, || show("flags"));
        let kept = proved.known & known == known && (proved.known ^ known) & !ALL_KNOWN == 0;
        self.expect(kept, || show("flags handed in"));
        self.expect(one == other, || show("lent image"));
        self.expect(lent == given, || show("given memory"));
        if b[0] != 0 {
            self.expect(other == before, || show("image after a refusal"));
            let none = b[2] == 0 && proved.known == known;
            self.expect(none, || show("numbers after a refusal"));
        }
        (answer, other)
    }

    /// Asks for a transaction. `data` is what the lent data hold before.
    pub fn transaction(
        &mut self,
        plan: &[u8],
        index: u32,
        data: &[u8],
    ) -> (TransactionAnswer, Lent<u8>) {
        self.transaction_by(both::TRANSACTION, plan, index, data)
    }

    /// Asks for a transaction of a chip's plan.
    pub(crate) fn transaction_by(
        &mut self,
        walker: Both<both::Transaction>,
        plan: &[u8],
        index: u32,
        data: &[u8],
    ) -> (TransactionAnswer, Lent<u8>) {
        let given = Lent::new(plan, GUARD_BYTE);
        let before = Lent::new(data, GUARD_BYTE);
        let (mut one, mut other, mut lent) = (before, before, given);
        let answer = (walker.plain)(plan, index, one.lend());
        let proved = (walker.proved)(lent.lend(), index, other.lend());
        let show = |what: &str| {
            let (name, room) = (walker.entry.name(), data.len());
            format!("{name}, {what}: {answer:?} {proved:?} for {plan:02X?} {index} room {room}")
        };
        self.count(walker.entry, answer.refusal, answer.field);
        self.expect(answer == proved, || show("answers"));
        self.expect(one == other, || show("lent data"));
        self.expect(lent == given, || show("given memory"));
        if proved.refusal != 0 {
            self.expect(other == before, || show("data after a refusal"));
            let zero = [proved.subaddress, proved.count] == [0; 2];
            self.expect(zero, || show("numbers after a refusal"));
        } else {
            let past = proved.count as usize..;
            let kept = other.get().get(past.clone()) == data.get(past);
            self.expect(kept, || show("past the data"));
        }
        (answer, other)
    }

    /// Reads. `settings` is what the lent settings hold before.
    pub fn read(&mut self, image: &[u8], known: u64, settings: &[i32]) -> (ReadAnswer, Lent<i32>) {
        self.read_by(both::READ, image, known, settings)
    }

    /// Reads a chip.
    pub(crate) fn read_by(
        &mut self,
        reader: Both<both::Read>,
        image: &[u8],
        known: u64,
        settings: &[i32],
    ) -> (ReadAnswer, Lent<i32>) {
        let given = Lent::new(image, GUARD_BYTE);
        let before = Lent::new(settings, GUARD_NUMBER);
        let (mut one, mut other, mut lent) = (before, before, given);
        let answer = (reader.plain)(image, known, one.lend());
        let proved = (reader.proved)(lent.lend(), known, other.lend());
        let show = |what: &str| {
            let given = format!("{image:02X?} known {known:X} length {}", settings.len());
            let name = reader.entry.name();
            format!("{name}, {what}: {answer:?} {proved:?} for {given}")
        };
        self.count(reader.entry, answer.refusal, answer.field);
        self.expect(answer == proved, || show("answers"));
        self.expect(one == other, || show("lent settings"));
        self.expect(lent == given, || show("given memory"));
        if proved.refusal != 0 {
            self.expect(other == before, || show("settings after a refusal"));
        }
        (answer, other)
    }

    /// Asks for the house setting. `settings` is what the lent settings hold before.
    pub fn house(&mut self, settings: &[i32]) {
        let before = Lent::new(settings, GUARD_NUMBER);
        let (mut one, mut other) = (before, before);
        let answer = plain::put_house(one.lend());
        let proved = ffi::house(other.lend());
        let a = [answer.refusal, answer.field];
        let b = [proved.refusal, proved.field];
        let show = |what: &str| format!("house, {what}: {a:?} {b:?} for length {}", settings.len());
        self.count(Entry::House, answer.refusal, answer.field);
        self.expect(a == b, || show("answers"));
        self.expect(one == other, || show("lent settings"));
        if b[0] != 0 {
            self.expect(other == before, || show("settings after a refusal"));
        }
    }
}
