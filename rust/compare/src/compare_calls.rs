//! Comparing two images, on both sides.

use crate::comparer::{Comparer, GUARD_BYTE};
use crate::lent::Lent;
use crate::tally::Entry;
use adv7194::ffi;
use plain::registers::READ_ONLY;
use plain::CompareAnswer;

impl Comparer {
    /// Compares two images. Nothing may differ exactly where the bytes are the
    /// same but for register 34's.
    pub fn compare(&mut self, a: &[u8], b: &[u8]) -> CompareAnswer {
        let given = (Lent::new(a, GUARD_BYTE), Lent::new(b, GUARD_BYTE));
        let mut lent = given;
        let answer = plain::compare(a, b);
        let proved = ffi::compare(lent.0.lend(), lent.1.lend());
        let show =
            |what: &str| format!("compare, {what}: {answer:?} {proved:?} for {a:02X?} {b:02X?}");
        self.count(Entry::Compare, answer.refusal, answer.field);
        self.expect(same_comparison(answer, proved), || show("answers"));
        self.expect(lent == given, || show("given memory"));
        let nothing = proved.fields == 0 && proved.registers == 0;
        if proved.refusal != 0 {
            let zero = nothing && proved.readable == 0;
            self.expect(zero, || show("numbers after a refusal"));
        } else {
            let mut places = a.iter().zip(b).enumerate();
            let equal = places.all(|(register, (a, b))| a == b || register == READ_ONLY);
            self.expect(nothing == equal, || show("equal images"));
        }
        answer
    }
}

/// Whether two answers of comparing are the same.
fn same_comparison(plain: CompareAnswer, proved: ffi::CompareAnswer) -> bool {
    plain.refusal == proved.refusal
        && plain.field == proved.field
        && plain.readable == proved.readable
        && plain.fields == proved.fields
        && plain.registers == proved.registers
}
