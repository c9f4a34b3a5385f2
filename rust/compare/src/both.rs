//! The calls that both chips have, on both sides: the plain one and the archive's,
//! with answers of the same types.

use crate::tally::Entry;
use adv7194::ffi;
use plain::{PlanAnswer, PlayAnswer, ReadAnswer, TransactionAnswer};

/// Planning: image, flags, settings, address, limit and the lent plan.
pub type Plan = fn(&[u8], u64, &[i32], u32, u32, &mut [u8]) -> PlanAnswer;
/// Playing: image, flags, the address used, the chip's own and the plan.
pub type Play = fn(&mut [u8], u64, u32, u32, &[u8]) -> PlayAnswer;
/// Reading: image, flags and the lent settings.
pub type Read = fn(&[u8], u64, &mut [i32]) -> ReadAnswer;
/// Asking for a transaction: plan, index and the lent data.
pub type Transaction = fn(&[u8], u32, &mut [u8]) -> TransactionAnswer;

/// A call on both sides.
#[derive(Clone, Copy)]
pub struct Both<F> {
    /// Which it is.
    pub entry: Entry,
    /// The plain one.
    pub plain: F,
    /// The archive's.
    pub proved: F,
}

/// The ADV7194's planning.
pub const PLAN: Both<Plan> = Both {
    entry: Entry::Plan,
    plain: plain::plan,
    proved: |image, known, settings, address, limit, plan| {
        plan_answer(ffi::plan(image, known, settings, address, limit, plan))
    },
};
/// Its playing.
pub const PLAY: Both<Play> = Both {
    entry: Entry::Play,
    plain: plain::play,
    proved: |image, known, used, own, plan| play_answer(ffi::play(image, known, used, own, plan)),
};
/// Its playing of captions.
pub const PLAY_CAPTIONS: Both<Play> = Both {
    entry: Entry::PlayCaptions,
    plain: plain::play_captions,
    proved: |image, known, used, own, plan| {
        play_answer(ffi::play_captions(image, known, used, own, plan))
    },
};
/// Its reading.
pub const READ: Both<Read> = Both {
    entry: Entry::Read,
    plain: plain::read,
    proved: |image, known, settings| {
        let answer = ffi::read(image, known, settings);
        ReadAnswer {
            refusal: answer.refusal,
            field: answer.field,
        }
    },
};
/// Its transactions.
pub const TRANSACTION: Both<Transaction> = Both {
    entry: Entry::Transaction,
    plain: plain::transaction,
    proved: |plan, index, data| {
        let answer = ffi::transaction(plan, index, data);
        TransactionAnswer {
            refusal: answer.refusal,
            field: answer.field,
            subaddress: answer.subaddress,
            count: answer.count,
        }
    },
};

/// What the archive's planning answers.
pub(crate) fn plan_answer(answer: ffi::PlanAnswer) -> PlanAnswer {
    PlanAnswer {
        refusal: answer.refusal,
        field: answer.field,
        length: answer.length,
        transactions: answer.transactions,
        bus_bytes: answer.bus_bytes,
    }
}

/// What the archive's playing answers.
fn play_answer(answer: ffi::PlayAnswer) -> PlayAnswer {
    PlayAnswer {
        refusal: answer.refusal,
        field: answer.field,
        acknowledged: answer.acknowledged,
        known: answer.known,
    }
}
