//! The ADV7195's calls, made on both sides and compared. It has no flags and no limit.

use crate::both::{Both, Plan, Play, Read, Transaction};
use crate::comparer::Comparer;
use crate::lent::Lent;
use crate::tally::Entry;
use adv7195::ffi;
use plain::progressive;
use plain::{PlanAnswer, PlayAnswer, ReadAnswer, TransactionAnswer};

/// Flags and a limit that nobody looks at.
const NONE: u64 = 0;
const NO_LIMIT: u32 = 0;

/// Planning.
const PLAN: Both<Plan> = Both {
    entry: Entry::ProgressivePlan,
    plain: |image, _, settings, address, _, plan| progressive::plan(image, settings, address, plan),
    proved: |image, _, settings, address, _, plan| {
        let answer = ffi::plan(image, settings, address, plan);
        PlanAnswer {
            refusal: answer.refusal,
            field: answer.field,
            length: answer.length,
            transactions: answer.transactions,
            bus_bytes: answer.bus_bytes,
        }
    },
};
/// Playing: the flags come back as they are.
const PLAY: Both<Play> = Both {
    entry: Entry::ProgressivePlay,
    plain: |image, known, used, own, plan| {
        let answer = progressive::play(image, used, own, plan);
        played(answer.refusal, answer.field, answer.acknowledged, known)
    },
    proved: |image, known, used, own, plan| {
        let answer = ffi::play(image, used, own, plan);
        played(answer.refusal, answer.field, answer.acknowledged, known)
    },
};
/// Reading.
const READ: Both<Read> = Both {
    entry: Entry::ProgressiveRead,
    plain: |image, _, settings| progressive::read(image, settings),
    proved: |image, _, settings| {
        let answer = ffi::read(image, settings);
        ReadAnswer {
            refusal: answer.refusal,
            field: answer.field,
        }
    },
};
/// Asking for a transaction, in plans of any order.
pub const TRANSACTION: Both<Transaction> = Both {
    entry: Entry::ProgressiveTransaction,
    plain: progressive::transaction,
    proved: |plan, index, data| {
        let answer = ffi::transaction(plan, index, data);
        TransactionAnswer {
            refusal: answer.refusal,
            field: answer.field,
            subaddress: answer.subaddress,
            count: answer.count,
        }
    },
};

/// What playing answers.
fn played(refusal: u32, field: u32, acknowledged: u32, known: u64) -> PlayAnswer {
    PlayAnswer {
        refusal,
        field,
        acknowledged,
        known,
    }
}

impl Comparer {
    /// Plans. `plan` is what the lent plan holds before.
    pub fn progressive_plan(
        &mut self,
        image: &[u8],
        settings: &[i32],
        address: u32,
        plan: &[u8],
    ) -> (PlanAnswer, Lent<u8>) {
        self.plan_by(PLAN, (image, NONE), settings, (address, NO_LIMIT), plan)
    }

    /// Plays.
    pub fn progressive_play(
        &mut self,
        image: &[u8],
        used: u32,
        own: u32,
        plan: &[u8],
    ) -> (PlayAnswer, Lent<u8>) {
        self.play_by(PLAY, image, NONE, used, own, plan)
    }

    /// Reads. `settings` is what the lent settings hold before.
    pub fn progressive_read(&mut self, image: &[u8], settings: &[i32]) -> (ReadAnswer, Lent<i32>) {
        self.read_by(READ, image, NONE, settings)
    }
}
